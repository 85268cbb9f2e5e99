// Archives written, checked, opened, stepped through and damaged.
mod common;
use common::{at_of, binary, disk, disk_of, five_three};
use dos33::*;

// Opening gives what the disk has.
fn agrees(disk: &Disk<'_>, bytes: &[u8]) {
    disk.check(bytes).unwrap();
    let archive = Archive::open(bytes).unwrap();
    assert_eq!(archive.volume(), disk.vtoc().unwrap().volume);
    assert_eq!(archive.blocks(), bytes.len() / 256);
    assert_eq!(
        archive.blocks() as u64,
        disk.survey().unwrap().archive_blocks
    );
    let catalog = disk.catalog().unwrap();
    let files = disk.files().unwrap();
    assert_eq!(files.len(), catalog.len());
    let mut steps = archive.entries();
    for (k, c) in catalog.iter().enumerate() {
        let e = steps.next().unwrap();
        assert_eq!(e.name(), c.name);
        assert_eq!(
            (e.kind(), e.locked(), e.sectors()),
            (c.kind, c.locked, c.sectors)
        );
        let data = disk.file(k).unwrap();
        assert_eq!((files[k].entry, &files[k].bytes), (*c, &data));
        assert_eq!(files[k].raw_name, *e.raw_name());
        assert_eq!((e.len(), e.is_empty()), (data.len(), data.is_empty()));
        assert_eq!(e.to_vec(), data);
        let parts: Vec<&[u8]> = e.data().collect();
        assert_eq!(parts.len(), data.len().div_ceil(254));
        assert!(parts.iter().rev().skip(1).all(|p| p.len() == 254));
        // Lent from the archive, not copied.
        assert!(parts
            .iter()
            .all(|p| bytes.as_ptr_range().contains(&p.as_ptr())));
    }
    assert!(steps.next().is_none());
    assert!(steps.next().is_none());
}

#[test]
fn written_checked_opened_and_stepped_through() {
    let d = disk();
    let flat = Disk::flat(&d);
    let bytes = flat.archive().unwrap();
    assert_eq!(bytes.len(), 8 * 256);
    assert_eq!(bytes[..5], [254, 1, 0, 8, 0]);
    agrees(&flat, &bytes);
    let archive = Archive::open(&bytes).unwrap();
    let names: Vec<Name> = archive.into_iter().map(|e| e.name()).collect();
    assert_eq!(names, ["LINE 7", "NOTES", "LINE 7"]);
    assert_eq!(archive.entries().next().unwrap().to_vec(), binary());
    assert_eq!(archive.bytes(), bytes);
    // All pairings of flat and nibbles.
    let nibbles = Disk::nibbles(&flat.nibblize().unwrap()).unwrap();
    assert_eq!(nibbles.archive().unwrap(), bytes);
    agrees(&nibbles, &bytes);
}

// What is lent outlives the archive and the iterators.
#[test]
fn name_bytes_and_data_are_lent_from_the_bytes() {
    let d = disk();
    let bytes = Disk::flat(&d).archive().unwrap();
    let (name, raw_name, part) = {
        let archive = Archive::open(&bytes).unwrap();
        let e = archive.entries().last().unwrap();
        (e.name(), e.raw_name(), e.data().next().unwrap())
    };
    assert_eq!(name, "LINE 7");
    assert_eq!(part, [11, 22, 33]);
    assert_eq!(raw_name[..7], *b"\xCC\xC9\xCE\xC5\xA0\xB7\xA0");
    assert!(bytes.as_ptr_range().contains(&raw_name.as_ptr()));
}

// Any other byte is another disk's archive, or none.
#[test]
fn damaged() {
    let d = disk();
    let flat = Disk::flat(&d);
    let good = flat.archive().unwrap();
    let mut bytes = good.clone();
    let mut count = |flip: u8| {
        let mut opened = 0;
        for i in 0..good.len() {
            bytes[i] ^= flip;
            assert_eq!(flat.check(&bytes), Err(Refusal::NotItsReturn), "byte {i}");
            match Archive::open(&bytes) {
                Ok(a) => {
                    opened += 1;
                    assert_eq!(a.entries().count(), 3, "byte {i}");
                }
                Err(r) => assert_eq!(r, Refusal::NotItsReturn),
            }
            bytes[i] = good[i];
        }
        opened
    };
    // Those that open are other contents: 1 volume, 3 locks, 3 * 2 bytes of sector counts, 603 bytes of data,
    // 1 type (0 as 1; 4 as 5 is none of the nine), 1 data length (600 as 601). A letter, a name length or a name
    // byte alone is none: the one does not give the other.
    assert_eq!(count(0x01), 1 + 3 + 6 + 603 + 1 + 1);
    // 1 volume, the sector counts, the data, 2 data lengths (600 as 728, 3 as 131), and the high bit of each of
    // 3 * 30 name bytes.
    assert_eq!(count(0x80), 1 + 6 + 603 + 2 + 90);
    // Each cut.
    for n in (0..good.len()).step_by(64) {
        assert_eq!(
            Archive::open(&good[..n]).unwrap_err(),
            Refusal::NotItsReturn
        );
        assert_eq!(flat.check(&good[..n]), Err(Refusal::NotItsReturn));
    }
}

// The most blocks there can be: 4,095 entries, or one file. No disk holds them.
#[test]
fn the_largest_archives() {
    let mut bytes = vec![0u8; 256 * 4096];
    bytes[1] = 1;
    bytes[4] = 16;
    let mut one = bytes.clone();
    for b in 1..4096usize {
        let next = if b < 4095 { b + 1 } else { 0 };
        bytes[256 * b] = next as u8;
        bytes[256 * b + 1] = (next / 256) as u8;
        bytes[256 * b + 42..256 * b + 72].fill(0xA0);
    }
    // Opening goes as deep as there are blocks; so much stack is enough.
    let copy = bytes.clone();
    let small = std::thread::Builder::new().stack_size(512 * 1024);
    let opened = small.spawn(move || {
        Archive::open(&copy).map(|a| (a.entries().count(), a.entry(4095).is_some()))
    });
    assert_eq!(opened.unwrap().join().unwrap(), Ok((4095, true)));
    let archive = Archive::open(&bytes).unwrap();
    assert_eq!(archive.blocks(), 4096);
    assert_eq!(
        archive
            .entries()
            .zip(1..)
            .filter(|(e, b)| e.block() == *b && e.is_empty() && e.name() == "")
            .count(),
        4095
    );
    assert_eq!(archive.entries().count(), 4095);
    assert_eq!(archive.entry(4095).map(|e| e.block()), Some(4095));
    assert!(archive.entry(0).is_none() && archive.entry(4096).is_none());
    // Steps need little stack.
    let steps = archive.entries();
    let counted = std::thread::scope(|s| {
        let small = std::thread::Builder::new().stack_size(48 * 1024);
        small.spawn_scoped(s, || steps.count()).unwrap().join()
    });
    assert_eq!(counted.unwrap(), 4095);

    let size = 254 * 4094;
    one[256 + 2] = 2;
    one[256 + 4] = 4;
    one[256 + 42..256 + 72].fill(0xA0);
    one[256 + 39..256 + 42].copy_from_slice(&[size as u8, (size >> 8) as u8, (size >> 16) as u8]);
    for b in 2..4096usize {
        let next = if b < 4095 { b + 1 } else { 0 };
        one[256 * b] = next as u8;
        one[256 * b + 1] = (next / 256) as u8;
        one[256 * b + 2..256 * b + 256].fill(b as u8);
    }
    let archive = Archive::open(&one).unwrap();
    let e = archive.entries().next().unwrap();
    assert_eq!(
        (e.len(), e.data().count(), archive.entries().count()),
        (1_039_876, 4094, 1)
    );
    assert!(e
        .data()
        .zip(2usize..)
        .all(|(part, b)| part == [b as u8; 254]));
}

// Disks with a few bytes changed by chance: whatever is accepted agrees, whatever is refused is refused alike.
fn disks_by_chance(per: usize, seed: u64) {
    let mut dice = common::Dice(seed);
    let good = disk_of(per);
    let (last, other) = (per - 1, per - 2);
    // Bytes that links, lists, names and types stand in.
    let places: Vec<usize> = [
        (17, 0),
        (17, last),
        (17, other),
        (18, last),
        (18, other),
        (19, last),
        (20, last),
        (18, 1),
    ]
    .into_iter()
    .map(|(t, s)| at_of(per, t, s))
    .collect();
    let (mut accepted, mut refused) = (0, [0; 19]);
    for round in 0..1000 {
        let mut d = good.clone();
        for _ in 0..1 + dice.roll(4) {
            let i = places[dice.roll(places.len())];
            match dice.roll(4) {
                0 => d[i + dice.roll(64)] = dice.roll(256) as u8,
                1 => d[i + dice.roll(64)] = 17 + dice.roll(4) as u8,
                2 => d[i + dice.roll(64)] = dice.roll(17) as u8,
                // A link.
                _ => {
                    d[i + 1] = 17 + dice.roll(4) as u8;
                    d[i + 2] = [last as u8, other as u8, 1, 0][dice.roll(4)];
                }
            }
        }
        let disk = Disk::flat(&d);
        match disk.archive() {
            Ok(bytes) => {
                accepted += 1;
                agrees(&disk, &bytes);
            }
            Err(r) => {
                refused[usize::from(r.number())] += 1;
                assert_eq!(disk.survey(), Err(r));
                assert_eq!(disk.file(0), Err(r));
                assert_eq!(disk.files(), Err(r));
                assert_eq!(disk.lists(0), Err(r));
                assert_eq!(disk.fetch("LINE 7"), Err(r));
                assert_eq!(disk.check(&[]), Err(r));
            }
        }
        // The encoder of these tests is slow.
        if per == 16 {
            let unrolled = Disk::nibbles(&disk.nibblize().unwrap());
            assert_eq!(unrolled.unwrap().bytes(), d);
        } else if round % 10 == 0 {
            let unrolled = Disk::nibbles_13(&five_three::stream(&d, 1));
            assert_eq!(unrolled.unwrap().bytes(), d);
        }
    }
    assert!(accepted > 100, "{accepted}");
    assert!((2..6).all(|r| refused[r] > 0), "{refused:?}");
    assert_eq!(accepted + refused[2..7].iter().sum::<i32>(), 1000);
}

#[test]
fn by_chance() {
    disks_by_chance(16, 0xD0533);
}

#[test]
fn by_chance_with_13_sectors() {
    disks_by_chance(13, 0xD0532);
}

// Bytes by chance are answered by every call.
#[test]
fn any_bytes_have_an_answer() {
    let mut dice = common::Dice(0xABCDEF);
    for k in 0..60usize {
        let size = match k % 3 {
            0 => DISK_SIZE,
            1 => DISK_SIZE_13,
            _ => dice.roll(4096),
        };
        let bytes: Vec<u8> = (0..size).map(|_| dice.roll(256) as u8).collect();
        let disk = Disk::flat(&bytes);
        assert_eq!(disk.vtoc() == Err(Refusal::OffSize), k % 3 == 2);
        let _ = (
            disk.vtoc(),
            disk.catalog(),
            disk.survey(),
            disk.archive(),
            disk.nibblize(),
        );
        let _ = (
            disk.file(k),
            disk.files(),
            disk.lists(k),
            disk.fetch(&bytes),
            disk.check(&bytes),
        );
        let (t, s) = (Track(dice.roll(256) as u8), Sector(dice.roll(256) as u8));
        let mut run = [TrackSectorPair::default(); LIST_PAIRS];
        let _ = (
            disk.sector(t, s),
            disk.pairs(t, s),
            disk.pair_run(t, s, &mut run),
        );
        let _ = (
            Disk::nibbles(&bytes),
            Disk::nibbles_13(&bytes),
            recognize_prologue(&bytes),
            format_from_data(&bytes),
        );
        let _ = (
            encode_sector(&bytes),
            Archive::open(&bytes).map(|a| a.entries().count()),
        );
    }
}
