// Disks of 13 sectors a track, flat and as nibbles.
mod common;
use common::five_three::{self, encode, field, place, ADDRESS, FIELD, NIBBLES, SUM};
use common::{at, at_13, binary, disk, disk_13, disk_of, Dice, SIZE_13};
use dos33::raw::*;
use dos33::*;

fn location(track: u8, sector: u8) -> Location {
    Location::new(Track(track), Sector(sector))
}

// The small disk of 13 sectors, flat and from a stream.
fn both(test: impl Fn(&Disk<'_>, &[u8])) {
    let bytes = disk_13();
    test(&Disk::flat(&bytes), &bytes);
    let stream = five_three::stream(&bytes, 254);
    test(&Disk::nibbles_13(&stream).unwrap(), &bytes);
}

fn by_chance(dice: &mut Dice, n: usize) -> Vec<u8> {
    (0..n).map(|_| dice.roll(256) as u8).collect()
}

fn key(volume: u8, track: u8, sector: u8) -> Key {
    Key {
        volume,
        track,
        sector,
    }
}

// Streams.

// The encoder of these tests and the words of document 02 agree.
#[test]
fn encoder_and_document() {
    assert_eq!(encode(&[0; 256]), [0xAB; 411]);
    let mut dice = Dice(0x53);
    for _ in 0..100 {
        let sector = by_chance(&mut dice, 256);
        assert_eq!(five_three::decode(&encode(&sector)), (sector, true));
    }
    // The 32 bytes are those of document 02: from ABh up, no D5h, no two zero bits in a row.
    let due: Vec<u8> = (0xAB..=0xFF)
        .filter(|b| *b != 0xD5 && (0..7).all(|k| b >> k & 3 != 0))
        .collect();
    assert_eq!(five_three::DISK_BYTES[..], due);
}

#[test]
fn in_order_and_from_any_point() {
    let mut dice = Dice(0x13_5EED);
    let bytes = by_chance(&mut dice, SIZE_13);
    let stream = five_three::stream(&bytes, 7);
    assert_eq!(denibblize_13(&stream).unwrap(), bytes);
    assert_eq!(Disk::nibbles_13(&stream).unwrap().bytes(), bytes);
    assert_eq!(recognize_prologue(&stream), Some(Prologue::ThirteenSectors));
    // Twice the stream has the field again that is cut.
    let twice = [&stream[..], &stream[..]].concat();
    assert_eq!(denibblize_13(&twice[1000..]).unwrap(), bytes);
    // To the other coding it has no address.
    assert_eq!(denibblize(&stream), Err(Refusal::Absent));
    assert_eq!(stream_sector(&stream, key(7, 0, 0)), Err(Refusal::Absent));
}

#[test]
fn shuffled_with_gaps_and_repeats() {
    let mut dice = Dice(0xD0532);
    for round in 0..8u8 {
        let bytes = by_chance(&mut dice, SIZE_13);
        let mut fields = five_three::fields(&bytes, round);
        // Repeats of whole writings.
        for _ in 0..dice.roll(60) {
            let again = fields[dice.roll(455)].clone();
            fields.push(again);
        }
        for k in (1..fields.len()).rev() {
            fields.swap(k, dice.roll(k + 1));
        }
        let mut stream = Vec::new();
        for f in &fields {
            // Without the gap of the writing, and with any gap that has no D5h.
            let gap = dice.roll(70);
            let bytes = (0..gap).map(|_| dice.roll(255) as u8);
            stream.extend(bytes.map(|b| if b == 0xD5 { 0xFF } else { b }));
            stream.extend(&f[40..]);
        }
        assert_eq!(denibblize_13(&stream).unwrap(), bytes);
        // Two sectors exchanged are another disk, so that the order above says something.
        let mut other = bytes.clone();
        other[..512].rotate_left(256);
        assert_ne!(denibblize_13(&stream).unwrap(), other);
    }
}

// The first writing of a sector counts, and those behind it are not looked at.
#[test]
fn the_first_of_two() {
    let bytes = disk_13();
    let stream = five_three::stream(&bytes, 254);
    let other = field(254, 18, 1, &encode(&[0x77; 256]));
    assert_eq!(
        denibblize_13(&[&stream[..], &other].concat()).unwrap(),
        bytes
    );
    let mut due = bytes.clone();
    due[at_13(18, 1)..at_13(18, 2)].fill(0x77);
    assert_eq!(denibblize_13(&[&other[..], &stream].concat()).unwrap(), due);
    // With a wrong sum: only as the first.
    let mut wrong = other;
    wrong[SUM] = if wrong[SUM] == 0xAB { 0xAD } else { 0xAB };
    assert_eq!(
        denibblize_13(&[&stream[..], &wrong].concat()).unwrap(),
        bytes
    );
    let first = [&wrong[..], &stream].concat();
    assert_eq!(denibblize_13(&first), Err(Refusal::DataSum));
    assert_eq!(
        stream_sector_13(&first, key(254, 0, 0)),
        Err(Refusal::DataSum)
    );
}

// Nibbles of every kind, not those of an encoder alone: what document 02 says, sum or no sum.
#[test]
fn any_nibbles() {
    let mut dice = Dice(0x411);
    let mut wrong = 0;
    for round in 0..400 {
        let mut nibbles: Vec<u8> = match round % 4 {
            // All values, those of t153 over 7 among them.
            0 => five_three::nibbles((0..410).map(|_| dice.roll(32) as u8)),
            // Any bytes but D5h, most of them none of the 32.
            1 => (0..411)
                .map(|_| dice.roll(256) as u8)
                .map(|b| if b == 0xD5 { 0xAA } else { b })
                .collect(),
            _ => encode(&by_chance(&mut dice, 256)),
        };
        if round % 4 == 3 {
            nibbles[dice.roll(411)] = dice.roll(256) as u8;
        }
        let (due, right) = five_three::decode(&nibbles);
        let stream = field(1, 2, 3, &nibbles);
        let got = stream_sector_13(&stream, key(1, 2, 3));
        if right {
            assert_eq!(got.unwrap()[..], due, "round {round}");
        } else {
            wrong += 1;
            assert_eq!(got, Err(Refusal::DataSum), "round {round}");
        }
    }
    assert!(wrong > 50 && wrong < 250, "{wrong}");
    // D5h and AAh are read as 0, as ABh is.
    for zero in [0xD5, 0xAA, 0xAB, 0x00, 0x96] {
        let mut nibbles = vec![0xAB; 411];
        nibbles[200] = zero;
        let got = stream_sector_13(&field(1, 2, 3, &nibbles), key(1, 2, 3));
        assert_eq!(got, Ok([0; 256]), "{zero:02X}");
    }
    // The two high bits of the first value are in the sum, and in no byte.
    let mut values = [0; 410];
    values[0] = 31;
    let got = stream_sector_13(
        &field(1, 2, 3, &five_three::nibbles(values.into_iter())),
        key(1, 2, 3),
    );
    let mut due = [0; 256];
    due[255] = 7;
    assert_eq!(got, Ok(due));
}

#[test]
fn sectors_by_key() {
    let bytes = disk_13();
    let mut stream = five_three::stream(&bytes, 254);
    for track in [0u8, 17, 18, 34] {
        for sector in 0..13u8 {
            // The address's sector is the DOS sector.
            let from = at_13(track.into(), sector.into());
            assert_eq!(
                stream_sector_13(&stream, key(254, track, sector)).unwrap(),
                bytes[from..from + 256]
            );
        }
    }
    for other in [key(253, 0, 0), key(254, 35, 0), key(254, 0, 13)] {
        assert_eq!(stream_sector_13(&stream, other), Err(Refusal::Absent));
    }
    // Any three bytes are a key, and by key there is no 11.
    let at = place(18, 2);
    let far = five_three::address(9, 200, 99, 9 ^ 200 ^ 99);
    stream[at + 40..at + 51].copy_from_slice(&far);
    assert_eq!(
        stream_sector_13(&stream, key(9, 200, 99)).unwrap(),
        bytes[at_13(18, 2)..at_13(18, 3)]
    );
    assert_eq!(
        stream_sector_13(&stream, key(254, 18, 2)),
        Err(Refusal::Absent)
    );
    assert_eq!(denibblize_13(&stream), Err(Refusal::Stranger));
}

// The stream of the small disk, with one thing wrong after another: which number comes first.
#[test]
fn refusals_in_order() {
    let good = five_three::stream(&disk_13(), 254);
    let write = |s: &mut [u8], (track, sector): (usize, usize), values: [u8; 4]| {
        let at = place(track, sector) + 40;
        let [v, t, n, sum] = values;
        s[at..at + 11].copy_from_slice(&five_three::address(v, t, n, sum));
    };
    // 10: a sector is missing.
    let mut s = good.clone();
    s.drain(place(30, 4)..place(30, 4) + FIELD);
    assert_eq!(denibblize_13(&s), Err(Refusal::Absent));
    assert_eq!(stream_sector_13(&s, key(254, 30, 4)), Err(Refusal::Absent));
    assert!(stream_sector_13(&s, key(254, 30, 5)).is_ok());
    // 9 before 10.
    let i = place(20, 0) + NIBBLES + 17;
    s[i] = if s[i] == 0xAB { 0xAD } else { 0xAB };
    assert_eq!(denibblize_13(&s), Err(Refusal::DataSum));
    assert_eq!(stream_sector_13(&s, key(254, 30, 4)), Err(Refusal::DataSum));
    // 11 before 9: a track, a sector, a volume.
    for values in [(254, 35, 0), (254, 3, 13), (254, 3, 15), (1, 3, 0)] {
        let mut s = s.clone();
        let (v, t, n) = values;
        write(&mut s, (3, 0), [v, t, n, v ^ t ^ n]);
        assert_eq!(denibblize_13(&s), Err(Refusal::Stranger), "{values:?}");
        // 8 before 11, even in the last address.
        let last = s.len() - FIELD;
        s[last + ADDRESS + 7] ^= 1;
        assert_eq!(denibblize_13(&s), Err(Refusal::AddressSum));
        assert_eq!(Disk::nibbles_13(&s).unwrap_err(), Refusal::AddressSum);
        assert_eq!(
            stream_sector_13(&s, key(254, 0, 0)),
            Err(Refusal::AddressSum)
        );
    }
    // Sector 12 is the last of a track; the same address in a stream of 16 is no stranger.
    let mut s = good.clone();
    write(&mut s, (3, 12), [254, 3, 12, 254 ^ 3 ^ 12]);
    assert!(denibblize_13(&s).is_ok());
    // Cut: the last field is not whole, to the third byte behind its sum.
    assert_eq!(denibblize_13(&[]), Err(Refusal::Absent));
    assert_eq!(denibblize_13(&good[..good.len() - 1]), Err(Refusal::Absent));
    let other = good.len() - 3;
    let ends = [&good[..other], &[1, 2, 3]].concat();
    assert_eq!(denibblize_13(&ends).unwrap(), disk_13());
}

// A stream with both codings stands for two disks: each call finds its own.
#[test]
fn two_disks_in_one_stream() {
    let mut dice = Dice(0x1613);
    let mut sixteen = disk();
    let mut thirteen = by_chance(&mut dice, SIZE_13);
    for b in sixteen.iter_mut() {
        *b ^= dice.roll(256) as u8;
    }
    thirteen[at_13(17, 0) + 6] = 3;
    let one = nibblize(&sixteen).unwrap();
    let other = five_three::stream(&thirteen, 3);
    for (stream, first) in [
        ([&one[..], &other].concat(), Prologue::SixteenSectors),
        ([&other[..], &one].concat(), Prologue::ThirteenSectors),
    ] {
        assert_eq!(denibblize(&stream).unwrap(), sixteen);
        assert_eq!(denibblize_13(&stream).unwrap(), thirteen);
        assert_eq!(Disk::nibbles(&stream).unwrap().bytes(), sixteen);
        assert_eq!(Disk::nibbles_13(&stream).unwrap().bytes(), thirteen);
        assert_eq!(recognize_prologue(&stream), Some(first));
    }
    // Field by field in turns. Neither asks for the sums of the other.
    let mut turns = Vec::new();
    let mut writings = one.chunks_exact(416);
    for f in other.chunks_exact(FIELD) {
        turns.extend(f);
        turns.extend(writings.next().unwrap());
    }
    writings.for_each(|f| turns.extend(f));
    assert_eq!(denibblize(&turns).unwrap(), sixteen);
    assert_eq!(denibblize_13(&turns).unwrap(), thirteen);
    let sum = FIELD + 412;
    turns[sum] = if turns[sum] == 0x96 { 0x97 } else { 0x96 };
    assert_eq!(denibblize(&turns), Err(Refusal::DataSum));
    assert_eq!(denibblize_13(&turns).unwrap(), thirteen);
    turns[ADDRESS + 7] ^= 1;
    assert_eq!(denibblize(&turns), Err(Refusal::DataSum));
    assert_eq!(denibblize_13(&turns), Err(Refusal::AddressSum));
}

// An address takes the next data field, whichever coding wrote it.
#[test]
fn an_address_takes_the_next_data_field() {
    let mut dice = Dice(0xADAD);
    let sector = by_chance(&mut dice, 256);
    let mut stream = five_three::address(5, 6, 7, 5 ^ 6 ^ 7);
    stream.extend([0xDE, 0xAA, 0xEB, 0xD5, 0xAA, 0xAD]);
    stream.extend(encode_sector(&sector).unwrap());
    // As many nibbles more as make up 410, and a sum for all of them.
    stream.extend([0xBD; 67]);
    let from = stream.len() - 410;
    let sum = five_three::DISK_BYTES
        .into_iter()
        .find(|n| five_three::decode(&[&stream[from..], &[*n]].concat()).1);
    stream.push(sum.unwrap());
    let (due, _) = five_three::decode(&stream[from..]);
    stream.extend([0xDE, 0xAA, 0xEB]);
    assert_eq!(stream_sector_13(&stream, key(5, 6, 7)).unwrap()[..], due);
    assert_ne!(due, sector);
    assert_eq!(stream_sector(&stream, key(5, 6, 7)), Err(Refusal::Absent));
}

// Denibblizing wants under 160 KiB of stack, on both editions; all other calls but those that open an archive want under 48.
#[test]
fn little_stack() {
    let of_13 = disk_13();
    let of_16 = disk();
    let streams = (five_three::stream(&of_13, 254), nibblize(&of_16).unwrap());
    let unroll = || {
        (
            Disk::nibbles_13(&streams.0).unwrap(),
            Disk::nibbles(&streams.1).unwrap(),
        )
    };
    let unrolled = std::thread::scope(|s| {
        let larger = std::thread::Builder::new().stack_size(160 * 1024);
        larger.spawn_scoped(s, unroll).unwrap().join().unwrap()
    });
    assert_eq!(
        (unrolled.0.bytes(), unrolled.1.bytes()),
        (&of_13[..], &of_16[..])
    );
    let calls = || {
        let sector = stream_sector_13(&streams.0, key(254, 18, 1)).unwrap();
        assert_eq!(sector, of_13[at_13(18, 1)..at_13(18, 2)]);
        assert_eq!(unrolled.1.nibblize().unwrap(), streams.1);
        for disk in [&unrolled.0, &unrolled.1] {
            let archive = disk.archive().unwrap();
            disk.check(&archive).unwrap();
            let files = disk.files().unwrap();
            assert_eq!(files.len(), disk.catalog().unwrap().len());
            assert_eq!(files[0].bytes, disk.file(0).unwrap());
            assert_eq!(files[2].bytes, disk.fetch("LINE 7").unwrap());
            let list = disk.lists(0).unwrap()[0];
            assert_eq!(disk.pairs(list.track, list.sector).unwrap().len(), 2);
            assert_eq!(disk.sector(Track(18), Sector(1)).unwrap(), sector);
            assert_eq!(disk.survey().unwrap().free, disk.vtoc().unwrap().free);
            assert_eq!(disk.holders().unwrap().held_once, 12);
        }
    };
    std::thread::scope(|s| {
        let small = std::thread::Builder::new().stack_size(48 * 1024);
        small.spawn_scoped(s, calls).unwrap().join().unwrap();
    });
}

// Flat disks.

#[test]
fn sizes() {
    assert_eq!((DISK_SIZE, DISK_SIZE_13), (143_360, 116_480));
    assert_eq!((disk().len(), disk_13().len()), (DISK_SIZE, DISK_SIZE_13));
    let good = disk_13();
    let longer = [&good[..], &[0]].concat();
    for d in [&good[1..], &longer] {
        let disk = Disk::flat(d);
        assert_eq!(disk.vtoc(), Err(Refusal::OffSize));
        assert_eq!(disk.catalog(), Err(Refusal::OffSize));
        assert_eq!(disk.survey(), Err(Refusal::OffSize));
        assert_eq!(disk.holders(), Err(Refusal::OffSize));
        assert_eq!(disk.file(0), Err(Refusal::OffSize));
        assert_eq!(disk.files(), Err(Refusal::OffSize));
        assert_eq!(disk.fetch("LINE 7"), Err(Refusal::OffSize));
        assert_eq!(disk.lists(0), Err(Refusal::OffSize));
        assert_eq!(disk.archive(), Err(Refusal::OffSize));
        assert_eq!(disk.check(&[]), Err(Refusal::OffSize));
        assert_eq!(disk.nibblize(), Err(Refusal::OffSize));
        assert_eq!(disk.sector(Track(0), Sector(0)), Err(Refusal::OffSize));
        assert_eq!(disk.pairs(Track(0), Sector(0)), Err(Refusal::OffSize));
    }
}

// Their streams are not written.
#[test]
fn nibblize_is_1() {
    both(|d, bytes| {
        assert_eq!(d.nibblize(), Err(Refusal::OffSize));
        assert_eq!(nibblize(bytes), Err(Refusal::OffSize));
    });
    let d = disk_13();
    let mut out = vec![0xA7; 232_960];
    let mut length = 99;
    let (o, n) = (out.as_mut_ptr(), out.len());
    let number = unsafe { dos33_nibblize(d.as_ptr(), d.len(), o, n, &mut length) };
    assert_eq!((number, length), (1, 99));
    assert!(out.iter().all(|&b| b == 0xA7));
}

#[test]
fn vtoc() {
    both(|d, _| {
        let v = d.vtoc().unwrap();
        assert_eq!((v.catalog, v.release, v.volume), (location(17, 12), 3, 254));
        assert_eq!(
            (v.pair_maximum, v.last_track, v.direction),
            (122, Track(18), -1)
        );
        assert_eq!((v.tracks, v.sectors, v.sector_size), (35, 13, 256));
        assert_eq!((v.free, v.used, v.percent_used), (13, 442, 97));
    });
}

// The VTOC's sectors on both sizes. The length says what a disk is: 13 in the VTOC makes no disk of 13 out of one of 16.
#[test]
fn sectors_of_the_vtoc() {
    for per in [16, 13] {
        let good = disk_of(per);
        let at = |track, sector| common::at_of(per, track, sector);
        for (tracks, sectors) in (0..=255u8).map(|n| (35, n)).chain([
            (40, 13),
            (40, 16),
            (36, 13),
            (36, 16),
            (13, 35),
            (0, 13),
        ]) {
            let mut d = good.clone();
            d[at(17, 0) + 52] = tracks;
            d[at(17, 0) + 53] = sectors;
            let passes =
                [35, 40].contains(&tracks) && (sectors == 13 || (sectors == 16 && per == 16));
            let disk = Disk::flat(&d);
            let vtoc = disk.vtoc();
            if passes {
                let vtoc = vtoc.unwrap();
                assert_eq!((vtoc.tracks, vtoc.sectors), (tracks, sectors));
                let free = if per == 16 { 15 } else { 13 };
                assert_eq!(
                    (vtoc.free, vtoc.used),
                    (free, 35 * per as u16 - free),
                    "{per}: {tracks}, {sectors}"
                );
                assert_eq!(disk.survey().unwrap().free, free);
                assert_eq!(disk.holders().unwrap().unheld, 35 * per as u16 - 12);
                assert_eq!(disk.file(0).unwrap(), binary());
            } else {
                let due = Refusal::NoTable;
                assert_eq!(vtoc, Err(due), "{per}: {tracks}, {sectors}");
                assert_eq!(disk.catalog(), Err(due));
                assert_eq!(disk.survey(), Err(due));
                assert_eq!(disk.holders(), Err(due));
                assert_eq!(disk.file(0), Err(due));
                assert_eq!(disk.files(), Err(due));
                assert_eq!(disk.fetch("NOTES"), Err(due));
                assert_eq!(disk.lists(0), Err(due));
                assert_eq!(disk.archive(), Err(due));
                assert_eq!(disk.check(&[]), Err(due));
                // These two ask for no table.
                assert!(disk.sector(Track(17), Sector(0)).is_ok());
                assert!(disk.pairs(Track(18), Sector(12)).is_ok());
            }
        }
    }
}

// One bit of the map at a time: of 16 bits of a track the 13 high ones are counted, of 16 sectors all.
#[test]
fn each_bit_of_the_map() {
    for per in [16, 13] {
        let mut d = disk_of(per);
        let map = common::at_of(per, 17, 0) + 56;
        d[map..map + 200].fill(0);
        for track in 0..50 {
            for bit in 0..32 {
                let i = map + 4 * track + bit / 8;
                d[i] = 0x80 >> (bit % 8);
                let counted = track < 35 && bit < per;
                let vtoc = Disk::flat(&d).vtoc().unwrap();
                assert_eq!(vtoc.free, u16::from(counted), "{per}: {track}, {bit}");
                assert_eq!(vtoc.used, 35 * per as u16 - vtoc.free);
                d[i] = 0;
            }
        }
    }
}

#[test]
fn catalog() {
    both(|d, _| {
        let c = d.catalog().unwrap();
        assert_eq!(c.len(), 3);
        let lists: Vec<Location> = c.iter().map(|e| e.list).collect();
        assert_eq!(
            lists,
            [location(18, 12), location(19, 12), location(20, 12)]
        );
        let names: Vec<&str> = c.iter().map(|e| e.name.as_str()).collect();
        assert_eq!(names, ["LINE 7", "NOTES", "LINE 7"]);
        let rest: Vec<_> = c.iter().map(|e| (e.kind, e.locked, e.sectors)).collect();
        assert_eq!(
            rest,
            [
                (FileType::Binary, true, 5),
                (FileType::Text, false, 2),
                (FileType::Binary, false, 0x102)
            ]
        );
    });
}

#[test]
fn files_by_number_and_by_name() {
    both(|d, _| {
        assert_eq!(d.file(0).unwrap(), binary());
        assert_eq!(d.file(1).unwrap(), []);
        assert_eq!(d.file(2).unwrap(), [11, 22, 33]);
        assert_eq!(d.file(3).unwrap(), []);
        assert_eq!(d.fetch("LINE 7").unwrap(), [11, 22, 33]);
        assert_eq!(d.fetch("NOTES").unwrap(), []);
        assert_eq!(d.fetch("GONE"), Err(Refusal::NotOnRoll));
        let files = d.files().unwrap();
        let bytes: Vec<&[u8]> = files.iter().map(|f| &f.bytes[..]).collect();
        assert_eq!(bytes, [&binary()[..], &[], &[11, 22, 33]]);
    });
}

#[test]
fn lists_and_pairs() {
    both(|d, _| {
        assert_eq!(d.lists(0).unwrap(), [location(18, 12), location(18, 11)]);
        assert_eq!(d.lists(1).unwrap(), [location(19, 12)]);
        assert_eq!(d.lists(3).unwrap(), []);
        assert_eq!(
            d.pairs(Track(18), Sector(12)).unwrap(),
            [location(18, 1), location(18, 2)]
        );
        assert_eq!(d.pairs(Track(18), Sector(11)).unwrap(), [location(18, 3)]);
        assert_eq!(d.pairs(Track(34), Sector(12)).unwrap(), []);
    });
}

#[test]
fn survey() {
    both(|d, _| {
        let s = d.survey().unwrap();
        assert_eq!((s.volume, s.entries), (254, 3));
        assert_eq!((s.free, s.used, s.percent_used), (13, 442, 97));
        // Two pages, four lists.
        assert_eq!((s.archive_blocks, s.links), (1 + 3 + 3 + 1, 6));
    });
}

#[test]
fn holders() {
    both(|d, _| {
        let h = d.holders().unwrap();
        // The VTOC, two pages, four lists, five data sectors.
        assert_eq!((h.unheld, h.held_once, h.shared), (443, 12, 0));
        assert_eq!((h.held_free, h.clean), (0, true));
    });
}

// Every sector, and those that a track has not: 13 and up are off the disk, in the window, the pairs and the run.
#[test]
fn sector_13_is_3() {
    both(|d, bytes| {
        let mut run = [TrackSectorPair::default(); LIST_PAIRS];
        for t in 0..=255u8 {
            for s in [0, 1, 6, 11, 12, 13, 14, 15, 16, 255] {
                let got = d.sector(Track(t), Sector(s));
                let pairs = d.pairs(Track(t), Sector(s));
                let pair_run = d.pair_run(Track(t), Sector(s), &mut run);
                if t < 35 && s < 13 {
                    let from = at_13(t.into(), s.into());
                    assert_eq!(got.unwrap(), bytes[from..from + 256], "{t}/{s}");
                    assert_eq!(pairs.unwrap().len(), pair_run.unwrap());
                } else {
                    assert_eq!(got, Err(Refusal::OffDisc), "{t}/{s}");
                    assert_eq!(pairs, Err(Refusal::OffDisc), "{t}/{s}");
                    assert_eq!(pair_run, Err(Refusal::OffDisc), "{t}/{s}");
                }
            }
        }
    });
    // On a disk of 16 sectors they are there.
    let d = disk();
    assert!(Disk::flat(&d).sector(Track(34), Sector(13)).is_ok());
}

// The window goes by the length of what it reads.
#[test]
fn the_window_goes_by_what_it_reads() {
    let (sixteen, thirteen) = (disk(), disk_13());
    let call = |d: &[u8], i: &[u8], flat: u8, sector: u8| {
        let mut out = [0u8; 256];
        let mut length = 0;
        let o = out.as_mut_ptr();
        let number = unsafe {
            dos33_window(
                d.as_ptr(),
                d.len(),
                i.as_ptr(),
                i.len(),
                flat,
                18,
                sector,
                o,
                256,
                &mut length,
            )
        };
        (number, out.to_vec())
    };
    let list = |d: &[u8], from: usize| d[from..from + 256].to_vec();
    for (d, i, flat) in [(&sixteen, &thirteen, 1), (&thirteen, &sixteen, 0)] {
        assert_eq!(call(d, i, flat, 15), (0, list(&sixteen, at(18, 15))));
    }
    for (d, i, flat) in [(&thirteen, &sixteen, 1), (&sixteen, &thirteen, 0)] {
        assert_eq!(call(d, i, flat, 15).0, 3);
        assert_eq!(call(d, i, flat, 12), (0, list(&thirteen, at_13(18, 12))));
    }
}

// A page, a link, an entry's list and a pair that name sector 13: off the disk, though a track of 16 has it.
#[test]
fn what_is_followed_to_sector_13() {
    for (per, due) in [(16, None), (13, Some(Refusal::OffDisc))] {
        let at = |track, sector| common::at_of(per, track, sector);
        let last = per - 1;
        for (i, byte) in [
            (at(17, 0) + 2, 13),
            (at(17, last) + 2, 13),
            (at(18, last) + 2, 13),
            (at(17, last) + 11 + 1, 13),
            (at(18, last) + 13, 13),
            (at(19, last) + 13, 13),
        ] {
            let mut d = disk_of(per);
            d[i] = byte;
            let disk = Disk::flat(&d);
            assert_eq!(disk.survey().err(), due, "{per}: {i}");
            assert_eq!(disk.holders().err(), due, "{per}: {i}");
            assert_eq!(disk.file(0).err(), due, "{per}: {i}");
            assert_eq!(disk.fetch("LINE 8").err(), due.or(Some(Refusal::NotOnRoll)));
            assert_eq!(disk.archive().err(), due, "{per}: {i}");
            // Sector 12 is on both.
            d[i] = 12;
            assert_ne!(Disk::flat(&d).survey().err(), Some(Refusal::OffDisc));
        }
    }
}

// Rings, cut links and letters, as on the other edition.
#[test]
fn refusals_of_the_contents() {
    let poked = |pokes: &[(usize, u8)]| {
        let mut d = disk_13();
        pokes.iter().for_each(|&(i, b)| d[i] = b);
        d
    };
    for (pokes, due) in [
        (
            &[(at_13(17, 11) + 1, 17), (at_13(17, 11) + 2, 12)][..],
            Refusal::Ring,
        ),
        (
            &[(at_13(18, 11) + 1, 18), (at_13(18, 11) + 2, 12)],
            Refusal::Ring,
        ),
        (&[(at_13(18, 11) + 1, 18)], Refusal::CutLink),
        (&[(at_13(17, 12) + 14, 0x80)], Refusal::BadLetter),
        (&[(at_13(19, 12) + 12, 35)], Refusal::OffDisc),
    ] {
        let d = poked(pokes);
        let disk = Disk::flat(&d);
        assert_eq!(disk.survey(), Err(due));
        assert_eq!(disk.holders(), Err(due));
        assert_eq!(disk.file(9), Err(due));
        assert_eq!(disk.files(), Err(due));
        assert_eq!(disk.lists(0), Err(due));
        assert_eq!(disk.fetch("NOTES"), Err(due));
        assert_eq!(disk.archive(), Err(due));
        assert_eq!(disk.check(&[]), Err(due));
    }
}

// The most pages, all entries live, and the longest chain of lists: 34 tracks of sectors 1 to 12.
#[test]
fn the_largest_catalog_and_the_longest_chain() {
    let places: Vec<(usize, usize)> = (1..35).flat_map(|t| (1..13).map(move |s| (t, s))).collect();
    let start = places.iter().position(|&p| p == (17, 1)).unwrap();
    let mut d = vec![0u8; SIZE_13];
    let mut chain = places.clone();
    chain.rotate_left(start);
    for (k, &(t, s)) in chain.iter().enumerate() {
        if let Some(&(u, r)) = chain.get(k + 1) {
            d[at_13(t, s) + 1] = u as u8;
            d[at_13(t, s) + 2] = r as u8;
        }
        for slot in 0..7 {
            common::record(&mut d, at_13(t, s), slot, (0x10, 0), 1, "X", 0);
        }
    }
    let v = at_13(17, 0);
    d[v + 1..v + 3].copy_from_slice(&[17, 1]);
    d[v + 52] = 40;
    d[v + 53] = 13;
    assert_eq!(Disk::flat(&d).catalog().unwrap().len(), 7 * 34 * 12);

    let mut d = vec![0u8; SIZE_13];
    let chain: Vec<_> = places.iter().filter(|&&p| p != (17, 12)).copied().collect();
    for (&(t, s), &(u, r)) in chain.iter().zip(&chain[1..]) {
        d[at_13(t, s) + 1] = u as u8;
        d[at_13(t, s) + 2] = r as u8;
    }
    d[v + 1..v + 3].copy_from_slice(&[17, 12]);
    d[v + 52] = 35;
    d[v + 53] = 13;
    common::record(&mut d, at_13(17, 12), 0, (1, 1), 4, "LONG", 407);
    let disk = Disk::flat(&d);
    let lists = disk.lists(0).unwrap();
    assert_eq!(lists.len(), 34 * 12 - 1);
    assert_eq!(lists[34 * 12 - 2], location(34, 12));
    assert_eq!(disk.survey().unwrap().links, 34 * 12);
    assert_eq!(disk.file(0).unwrap(), []);
}

// The recogniser of DOS 3.3 looks where a disk of 16 sectors a track has its VTOC, whatever the length.
#[test]
fn no_disk_of_dos_3_3() {
    let mut d = disk_13();
    d[..9].copy_from_slice(&[0x01, 0xA5, 0x27, 0xC9, 0x09, 0xD0, 0x18, 0xA5, 0x2B]);
    d[at_13(17, 0) + 2] = 15;
    assert_eq!(d[at_13(17, 0) + 1..at_13(17, 0) + 4], [17, 15, 3]);
    assert_eq!(format_from_data(&d), Ok(false));
    d[at(17, 0) + 1..at(17, 0) + 4].copy_from_slice(&[17, 15, 3]);
    assert_eq!(format_from_data(&d), Ok(true));
}

// Archives across the editions.

// The same contents give the same archive, and each disk passes the other's.
#[test]
fn one_archive_for_both_editions() {
    let (sixteen, thirteen) = (disk(), disk_13());
    let nibbles_16 = Disk::nibbles(&nibblize(&sixteen).unwrap()).unwrap();
    let nibbles_13 = Disk::nibbles_13(&five_three::stream(&thirteen, 254)).unwrap();
    let all = [
        Disk::flat(&sixteen),
        Disk::flat(&thirteen),
        nibbles_16,
        nibbles_13,
    ];
    let archives: Vec<Vec<u8>> = all.iter().map(|d| d.archive().unwrap()).collect();
    assert_eq!(archives[0].len(), 8 * 256);
    for (a, d) in archives
        .iter()
        .flat_map(|a| all.iter().map(move |d| (a, d)))
    {
        assert_eq!(*a, archives[0]);
        assert_eq!(d.check(a), Ok(()));
    }
    // Other contents on one of them: each passes its own alone.
    let mut other = thirteen.clone();
    other[at_13(18, 1) + 5] ^= 1;
    let changed = Disk::flat(&other).archive().unwrap();
    assert_ne!(changed, archives[0]);
    assert_eq!(all[0].check(&changed), Err(Refusal::NotItsReturn));
    assert_eq!(
        Disk::flat(&other).check(&archives[0]),
        Err(Refusal::NotItsReturn)
    );
    assert_eq!(Disk::flat(&other).check(&changed), Ok(()));
}

// Files by chance: kind, name and bytes as the sectors hold them.
struct Made {
    kind: u8,
    name: String,
    bytes: Vec<u8>,
}

// A disk of them, its sectors taken in an order by chance.
fn laid_out(per: usize, files: &[Made], dice: &mut Dice) -> Vec<u8> {
    let mut d = vec![0u8; 256 * 35 * per];
    let start = |n: usize| 256 * n;
    let (t, first) = (17 * per, per - 1);
    let mut free: Vec<usize> = (1..35)
        .filter(|track| *track != 17)
        .flat_map(|track| (1..per).map(move |s| per * track + s))
        .collect();
    for k in (1..free.len()).rev() {
        free.swap(k, dice.roll(k + 1));
    }
    let v = start(t);
    d[v + 1..v + 3].copy_from_slice(&[17, first as u8]);
    d[v + 6] = 42;
    d[v + 52] = 35;
    d[v + 53] = per as u8;
    for (k, file) in files.iter().enumerate() {
        let page = start(t + first - k / 7);
        if k % 7 == 0 && k > 0 {
            d[page + 256 + 1] = 17;
            d[page + 256 + 2] = (first - k / 7) as u8;
        }
        let list = free.pop().unwrap();
        let at = ((list / per) as u8, (list % per) as u8);
        common::record(&mut d, page, k % 7, at, file.kind, &file.name, 3 * k as u16);
        for (p, part) in file.bytes.chunks(256).enumerate() {
            let sector = free.pop().unwrap();
            let pair = start(list) + 12 + 2 * p;
            d[pair] = (sector / per) as u8;
            d[pair + 1] = (sector % per) as u8;
            d[start(sector)..start(sector) + part.len()].copy_from_slice(part);
        }
    }
    d
}

#[test]
fn one_archive_for_contents_by_chance() {
    let mut dice = Dice(0x13160A);
    for round in 0..40 {
        let mut files = Vec::new();
        for k in 0..dice.roll(30) {
            let mut bytes = vec![0; 1 + dice.roll(2200)];
            bytes.iter_mut().for_each(|b| *b = dice.roll(256) as u8);
            // A length that fits, or any.
            if bytes.len() > 4 && dice.roll(4) > 0 {
                let length = dice.roll(bytes.len() - 3) as u16;
                bytes[2..4].copy_from_slice(&length.to_le_bytes());
            }
            files.push(Made {
                kind: [4, 4, 0x84, 0, 1, 0x7F][dice.roll(6)],
                name: format!("FILE {}", k % 20),
                bytes,
            });
        }
        let sixteen = laid_out(16, &files, &mut dice);
        let thirteen = laid_out(13, &files, &mut dice);
        let (a, b) = (Disk::flat(&sixteen), Disk::flat(&thirteen));
        let archive = a.archive().unwrap();
        assert_eq!(b.archive().unwrap(), archive, "round {round}");
        assert_eq!((a.check(&archive), b.check(&archive)), (Ok(()), Ok(())));
        assert_eq!(
            (a.survey().unwrap().used, b.survey().unwrap().used),
            (560, 455)
        );
        let (one, other) = (a.files().unwrap(), b.files().unwrap());
        assert_eq!((one.len(), other.len()), (files.len(), files.len()));
        for (k, (x, y)) in one.iter().zip(&other).enumerate() {
            assert_eq!((x.entry.name, &x.bytes), (y.entry.name, &y.bytes));
            assert_eq!(b.file(k).unwrap(), x.bytes);
        }
        if !files.is_empty() {
            let name = &files[files.len() - 1].name;
            let due = &one[files.len() - 1].bytes;
            assert_eq!(b.fetch(name).unwrap(), *due);
            assert_eq!(a.fetch(name).unwrap(), *due);
        }
    }
}
