// Each refusal by the smallest change to a good disk, stream or record, with its place in the order.
mod common;
use common::{address, at, disk, field};
use dos33::*;

fn poked(pokes: &[(usize, u8)]) -> Vec<u8> {
    let mut d = disk();
    for &(i, b) in pokes {
        d[i] = b;
    }
    d
}

// What the calls that go through every entry say.
fn deep(d: &[u8], due: Refusal) {
    let disk = Disk::flat(d);
    assert_eq!(disk.file(0), Err(due));
    assert_eq!(disk.file(1_000_000), Err(due));
    assert_eq!(disk.files(), Err(due));
    assert_eq!(disk.fetch("LINE 7"), Err(due));
    assert_eq!(disk.fetch("NOBODY"), Err(due));
    assert_eq!(disk.lists(0), Err(due));
    assert_eq!(disk.survey(), Err(due));
    assert_eq!(disk.holders(), Err(due));
    assert_eq!(disk.is_clean(), Err(due));
    assert_eq!(disk.archive(), Err(due));
    assert_eq!(disk.check(&[]), Err(due));
    amended(d, due);
}

// So do a save and a delete, by a side or not, and the disk stays as it was, and a forecast. The same where the map calls the VTOC free: 20 comes behind.
fn amended(d: &[u8], due: Refusal) {
    let mut dirty = d.to_vec();
    if let Some(bits) = dirty.get_mut(at(17, 0) + 56 + 4 * 17 + 1) {
        *bits |= 1;
    }
    for before in [d, &dirty] {
        let mut e = before.to_vec();
        let mut disk = DiskMut::flat(&mut e);
        for (name, data) in [(&b"NEW"[..], &[1; 9][..]), (b"", &[]), (b"LINE 7", &[])] {
            assert_eq!(disk.save(name, 1, data), Err(due));
            assert_eq!(disk.delete(name), Err(due));
            for side in [Side::Ours, Side::Survey] {
                assert_eq!(disk.save_for(side, 0, name, 1, data), Err(due));
                assert_eq!(disk.delete_for(side, 0, name), Err(due));
            }
        }
        for lengths in [&[][..], &[0], &[u64::MAX; 64]] {
            assert_eq!(disk.disk().forecast(lengths), Err(due));
        }
        assert_eq!(disk.disk().forecast(&[0; 65]), Err(Refusal::PlanLong));
        assert_eq!(e, before);
    }
}

// Those, and the catalog.
fn pages(d: &[u8], due: Refusal) {
    assert_eq!(Disk::flat(d).catalog(), Err(due));
    assert!(Disk::flat(d).vtoc().is_ok());
    deep(d, due);
}

#[test]
fn words_and_numbers() {
    let words = [
        "off size",
        "no table",
        "off disc",
        "ring",
        "cut link",
        "bad letter",
        "overlong",
        "address sum",
        "data sum",
        "absent",
        "stranger",
        "tray short",
        "not its return",
        "unwritable name",
        "not binary",
        "page full",
        "cut short",
        "not on roll",
        "not clean",
        "no space",
        "name taken",
        "other side's name",
        "over limit",
        "plan long",
    ];
    // 19 is left for Req 01.
    let numbers = (1..=18).chain(20..=25);
    for (k, (number, word)) in numbers.clone().zip(words).enumerate() {
        let r = Refusal::from_number(number).unwrap();
        assert_eq!(r, Refusal::ALL[k]);
        assert_eq!((r.word(), r.number()), (word, number));
        assert_eq!(r.to_string(), format!("{word} ({number})"));
    }
    assert_eq!(Refusal::ALL.len(), words.len());
    assert_eq!(numbers.clone().count(), words.len());
    // The others have none.
    assert_eq!(Refusal::from_number(0), None);
    assert_eq!(Refusal::Unnamed(0).word(), "");
    for number in (1..=255).filter(|n| !numbers.clone().any(|m| m == *n)) {
        let r = Refusal::from_number(number).unwrap();
        assert_eq!(r, Refusal::Unnamed(number));
        assert_eq!((r.number(), r.word()), (number, ""));
        assert_eq!(r.to_string(), format!("no such number ({number})"));
    }
    let e: Box<dyn std::error::Error + Send + Sync> = Box::new(Refusal::Ring);
    assert_eq!(e.to_string(), "ring (4)");
}

#[test]
fn off_size_1() {
    let good = disk();
    let longer = [&good[..], &[0]].concat();
    for d in [&good[1..], &longer[..], &[]] {
        let disk = Disk::flat(d);
        assert_eq!(disk.vtoc(), Err(Refusal::OffSize));
        assert_eq!(disk.catalog(), Err(Refusal::OffSize));
        assert_eq!(disk.nibblize(), Err(Refusal::OffSize));
        assert_eq!(disk.sector(Track(99), Sector(0)), Err(Refusal::OffSize));
        assert_eq!(disk.pairs(Track(99), Sector(0)), Err(Refusal::OffSize));
        deep(d, Refusal::OffSize);
    }
}

#[test]
fn no_table_2() {
    let v = at(17, 0);
    for (tracks, sectors) in [(36, 16), (35, 15), (0, 0)] {
        let d = poked(&[(v + 52, tracks), (v + 53, sectors)]);
        assert_eq!(Disk::flat(&d).vtoc(), Err(Refusal::NoTable));
        assert_eq!(Disk::flat(&d).catalog(), Err(Refusal::NoTable));
        deep(&d, Refusal::NoTable);
        // These three do not ask for a table.
        assert!(Disk::flat(&d).sector(Track(17), Sector(0)).is_ok());
        assert!(Disk::flat(&d).pairs(Track(18), Sector(15)).is_ok());
        assert!(Disk::flat(&d).nibblize().is_ok());
    }
    let d = poked(&[(v + 52, 40), (v + 53, 13)]);
    assert!(Disk::flat(&d).survey().is_ok());
    assert!(Disk::flat(&d).holders().is_ok());
}

#[test]
fn off_disc_3() {
    // A page, a list's link, an entry's list, a pair of a text.
    pages(&poked(&[(at(17, 0) + 2, 16)]), Refusal::OffDisc);
    pages(&poked(&[(at(17, 15) + 1, 35)]), Refusal::OffDisc);
    for i in [
        at(18, 15) + 1,
        at(17, 15) + 11,
        at(18, 14) + 12,
        at(19, 15) + 12,
    ] {
        let d = poked(&[(i, 35)]);
        assert!(Disk::flat(&d).catalog().is_ok());
        deep(&d, Refusal::OffDisc);
    }
}

#[test]
fn ring_4() {
    pages(
        &poked(&[(at(17, 14) + 1, 17), (at(17, 14) + 2, 15)]),
        Refusal::Ring,
    );
    let d = poked(&[(at(18, 14) + 1, 18), (at(18, 14) + 2, 15)]);
    assert!(Disk::flat(&d).catalog().is_ok());
    deep(&d, Refusal::Ring);
}

#[test]
fn cut_link_5() {
    deep(&poked(&[(at(18, 14) + 1, 18)]), Refusal::CutLink);
    // Before 3.
    deep(&poked(&[(at(18, 14) + 1, 200)]), Refusal::CutLink);
}

#[test]
fn bad_letter_6() {
    pages(
        &poked(&[(at(17, 14) + 11 + 35 * 6 + 32, 0x80)]),
        Refusal::BadLetter,
    );
    // Before what the lists have, and not for a deleted entry.
    pages(
        &poked(&[(at(17, 15) + 14, 0x80), (at(18, 14) + 1, 18)]),
        Refusal::BadLetter,
    );
    assert!(Disk::flat(&poked(&[(at(17, 15) + 11 + 35 + 3, 0x80)]))
        .survey()
        .is_ok());
}

#[test]
fn overlong_7() {
    // 260 blocks a file: 15 need 3,901 and 16 need 4,161.
    let d = common::large(15);
    let archive = Disk::flat(&d).archive().unwrap();
    assert_eq!(archive.len(), 256 * 3901);
    Disk::flat(&d).check(&archive).unwrap();
    let d = common::large(16);
    assert_eq!(Disk::flat(&d).survey().unwrap().archive_blocks, 4161);
    assert_eq!(Disk::flat(&d).holders().unwrap().shared, 4);
    assert_eq!(Disk::flat(&d).archive(), Err(Refusal::Overlong));
    assert_eq!(Disk::flat(&d).files(), Err(Refusal::Overlong));
    assert_eq!(Disk::flat(&d).check(&archive), Err(Refusal::Overlong));
}

// Exactly 4,096 blocks are written, checked and opened; with one more entry it is 7.
#[test]
fn the_last_archive_that_is_not_overlong() {
    let mut d = common::large(15);
    // One file more, of 192 sectors whose length does not fit: 49,152 bytes, 194 blocks and its own.
    let (page, slot) = (13, 1);
    common::entry(&mut d, 17, page, slot, (20, 4), 4, "REST", 194);
    d[at(20, 4) + 1] = 20;
    d[at(20, 4) + 2] = 5;
    for p in 0..LIST_PAIRS {
        d[at(20, 4) + 12 + 2 * p] = 1;
    }
    for p in 0..192 - LIST_PAIRS {
        d[at(20, 5) + 12 + 2 * p] = 1;
    }
    let archive = Disk::flat(&d).archive().unwrap();
    assert_eq!(archive.len(), 256 * 4096);
    Disk::flat(&d).check(&archive).unwrap();
    let opened = Archive::open(&archive).unwrap();
    assert_eq!((opened.blocks(), opened.entries().count()), (4096, 16));
    assert_eq!(
        opened.entries().last().unwrap().to_vec(),
        Disk::flat(&d).fetch("REST").unwrap()
    );
    common::entry(&mut d, 17, page, slot + 1, (20, 4), 0, "ONE MORE", 1);
    assert_eq!(Disk::flat(&d).archive(), Err(Refusal::Overlong));
    assert_eq!(Disk::flat(&d).survey().unwrap().archive_blocks, 4097);
}

#[test]
fn address_sum_8() {
    let key = Key {
        volume: 254,
        track: 0,
        sector: 0,
    };
    let mut s = nibblize(&disk()).unwrap();
    s[field(34, 15) + 58] ^= 1;
    assert_eq!(denibblize(&s), Err(Refusal::AddressSum));
    assert_eq!(Disk::nibbles(&s).unwrap_err(), Refusal::AddressSum);
    assert_eq!(stream_sector(&s, key), Err(Refusal::AddressSum));
    // Before 11 and 9.
    address(&mut s, field(0, 0), 254, 35, 0);
    s[field(1, 0) + 100] ^= 1;
    assert_eq!(denibblize(&s), Err(Refusal::AddressSum));
}

#[test]
fn data_sum_9() {
    let mut s = nibblize(&disk()).unwrap();
    // A repeated field is not looked at; the first is.
    let again = s[field(2, 2)..field(2, 3)].to_vec();
    s.extend_from_slice(&again);
    let end = s.len();
    s[end - 4] = if s[end - 4] == 0x96 { 0x97 } else { 0x96 };
    assert!(denibblize(&s).is_ok());
    let i = field(2, 2) + 412;
    s[i] = if s[i] == 0x96 { 0x97 } else { 0x96 };
    assert_eq!(denibblize(&s), Err(Refusal::DataSum));
    assert_eq!(
        stream_sector(
            &s,
            Key {
                volume: 254,
                track: 0,
                sector: 0
            }
        ),
        Err(Refusal::DataSum)
    );
}

#[test]
fn absent_10() {
    let s = nibblize(&disk()).unwrap();
    assert_eq!(denibblize(&[]), Err(Refusal::Absent));
    assert_eq!(denibblize(&s[..s.len() - 1]), Err(Refusal::Absent));
    assert_eq!(denibblize(&s[field(0, 1)..]), Err(Refusal::Absent));
    assert_eq!(
        stream_sector(
            &s,
            Key {
                volume: 253,
                track: 0,
                sector: 0
            }
        ),
        Err(Refusal::Absent)
    );
}

#[test]
fn stranger_11() {
    let good = nibblize(&disk()).unwrap();
    for (volume, track, sector) in [(254, 35, 0), (254, 0, 16), (1, 0, 0)] {
        let mut s = good.clone();
        address(&mut s, field(20, 0), volume, track, sector);
        assert_eq!(denibblize(&s), Err(Refusal::Stranger));
        // By key there is no 11.
        assert!(stream_sector(
            &s,
            Key {
                volume,
                track,
                sector
            }
        )
        .is_ok());
    }
}

#[test]
fn not_its_return_13() {
    let d = disk();
    let good = Disk::flat(&d).archive().unwrap();
    let other = common::large(1);
    assert_eq!(Disk::flat(&other).check(&good), Err(Refusal::NotItsReturn));
    assert_eq!(Disk::flat(&d).check(&[]), Err(Refusal::NotItsReturn));
    assert_eq!(
        Disk::flat(&d).check(&good[..good.len() - 1]),
        Err(Refusal::NotItsReturn)
    );
    let longer = [&good[..], &[0; 256]].concat();
    assert_eq!(Disk::flat(&d).check(&longer), Err(Refusal::NotItsReturn));
    assert_eq!(Archive::open(&longer).unwrap_err(), Refusal::NotItsReturn);
}

fn record(name: &[u8]) -> EntryRecord<'_> {
    EntryRecord {
        list: Location::new(Track(18), Sector(15)),
        kind: FileType::Binary,
        locked: false,
        name,
        sectors: 2,
    }
}

#[test]
fn unwritable_name_14() {
    for name in [&b""[..], &[0x41; 31], &[0x41; 300], &[0x41, 0x80], &[0xC1]] {
        assert_eq!(record(name).to_bytes(), Err(Refusal::UnwritableName));
        assert_eq!(
            catalog_page(&[], &[record(b"A"), record(name)]),
            Err(Refusal::UnwritableName)
        );
    }
    assert!(record(&[0x7F; 30]).to_bytes().is_ok());
    // Lengths that are small again as a byte.
    let name = vec![0x41; 256 + 5];
    assert_eq!(record(&name).to_bytes(), Err(Refusal::UnwritableName));
    assert_eq!(
        catalog_page(&[], &[record(&name)]),
        Err(Refusal::UnwritableName)
    );
}

#[test]
fn not_binary_15() {
    for code in 0..=255 {
        let kind = FileType::from_code(code);
        let due = if code == 4 {
            Ok(vec![0, 0, 1, 0, 9])
        } else {
            Err(Refusal::NotBinary)
        };
        assert_eq!(binary_file(kind, 0, 1, &[9]), due);
    }
}

#[test]
fn page_full_16() {
    assert!(catalog_page(&[], &[record(b"A"); 7]).is_ok());
    assert_eq!(
        catalog_page(&[], &[record(b"A"); 8]),
        Err(Refusal::PageFull)
    );
    // Before 14.
    assert_eq!(
        catalog_page(&[], &[record(b""); 100]),
        Err(Refusal::PageFull)
    );
}

#[test]
fn cut_short_17() {
    assert_eq!(format_from_data(&[]), Err(Refusal::CutShort));
    let mut d = vec![0; 69_636];
    d[..9].copy_from_slice(&[0x01, 0xA5, 0x27, 0xC9, 0x09, 0xD0, 0x18, 0xA5, 0x2B]);
    assert_eq!(format_from_data(&d[..69_635]), Err(Refusal::CutShort));
    assert_eq!(format_from_data(&d), Ok(false));
}

#[test]
fn not_on_roll_18() {
    let d = disk();
    for name in [
        &b""[..],
        b"LINE 8",
        b"LINE 7 ",
        b"\xCC\xC9\xCE\xC5 7",
        &[0x41; 1000],
    ] {
        assert_eq!(Disk::flat(&d).fetch(name), Err(Refusal::NotOnRoll));
    }
}
