// The small disk through every call, flat and as nibbles.
mod common;
use common::{at, binary, disk};
use dos33::*;

fn place(track: u8, sector: u8) -> Location {
    Location::new(Track(track), Sector(sector))
}

fn both(test: impl Fn(&Disk<'_>, &[u8])) {
    let bytes = disk();
    let flat = Disk::flat(&bytes);
    test(&flat, &bytes);
    let stream = flat.nibblize().unwrap();
    test(&Disk::nibbles(&stream).unwrap(), &bytes);
}

#[test]
fn vtoc() {
    both(|d, _| {
        let v = d.vtoc().unwrap();
        assert_eq!((v.catalog, v.release, v.volume), (place(17, 15), 3, 254));
        assert_eq!(
            (v.pair_maximum, v.last_track, v.direction),
            (122, Track(18), -1)
        );
        assert_eq!((v.tracks, v.sectors, v.sector_size), (35, 16, 256));
        assert_eq!((v.free, v.used, v.percent_used), (15, 545, 97));
    });
}

#[test]
fn catalog() {
    both(|d, _| {
        let c = d.catalog().unwrap();
        assert_eq!(c.len(), 3);
        assert_eq!(c[0].list, place(18, 15));
        assert_eq!(
            (c[0].kind, c[0].locked, c[0].sectors),
            (FileType::Binary, true, 5)
        );
        assert_eq!(c[0].name, "LINE 7");
        assert_eq!(c[1].list, place(19, 15));
        assert_eq!(
            (c[1].kind, c[1].locked, c[1].sectors),
            (FileType::Text, false, 2)
        );
        assert_eq!(c[1].name.as_bytes(), b"NOTES");
        assert_eq!(c[2].list, place(20, 15));
        assert_eq!(
            (c[2].kind, c[2].locked, c[2].sectors),
            (FileType::Binary, false, 0x102)
        );
        assert_eq!(c[2].name.to_string(), "LINE 7");
        assert_eq!(format!("{:>8}|", c[2].name), "  LINE 7|");
    });
}

#[test]
fn files_by_number_and_by_name() {
    both(|d, _| {
        assert_eq!(d.file(0).unwrap(), binary());
        assert_eq!(d.file(1).unwrap(), []);
        assert_eq!(d.file(2).unwrap(), [11, 22, 33]);
        assert_eq!(d.file(3).unwrap(), []);
        assert_eq!(d.file(usize::MAX).unwrap(), []);
        // The last of that name.
        assert_eq!(d.fetch("LINE 7").unwrap(), [11, 22, 33]);
        assert_eq!(d.fetch(b"NOTES").unwrap(), []);
        assert_eq!(d.fetch(d.catalog().unwrap()[0].name).unwrap(), [11, 22, 33]);
        assert_eq!(d.fetch("LINE 7 "), Err(Refusal::NotOnRoll));
        assert_eq!(d.fetch("GONE"), Err(Refusal::NotOnRoll));
    });
}

#[test]
fn lists_and_pairs() {
    both(|d, _| {
        assert_eq!(d.lists(0).unwrap(), [place(18, 15), place(18, 14)]);
        assert_eq!(d.lists(1).unwrap(), [place(19, 15)]);
        assert_eq!(d.lists(3).unwrap(), []);
        assert_eq!(
            d.pairs(Track(18), Sector(15)).unwrap(),
            [place(18, 1), place(18, 2)]
        );
        assert_eq!(d.pairs(Track(18), Sector(14)).unwrap(), [place(18, 3)]);
        assert_eq!(d.pairs(Track(34), Sector(15)).unwrap(), []);
        assert_eq!(d.pairs(Track(34), Sector(16)), Err(Refusal::OffDisc));
    });
}

// A list without a zero ends with its sector.
#[test]
fn the_most_pairs() {
    let mut d = disk();
    d[at(30, 0)..at(30, 0) + 256].fill(200);
    let pairs = Disk::flat(&d).pairs(Track(30), Sector(0)).unwrap();
    assert_eq!(pairs, [place(200, 200); LIST_PAIRS]);
}

#[test]
fn sectors() {
    both(|d, bytes| {
        for t in 0..35u8 {
            for s in 0..16u8 {
                let from = at(t.into(), s.into());
                assert_eq!(
                    d.sector(Track(t), Sector(s)).unwrap(),
                    bytes[from..from + 256]
                );
            }
        }
        assert_eq!(d.sector(Track(35), Sector(0)), Err(Refusal::OffDisc));
        assert_eq!(d.sector(Track(0), Sector(16)), Err(Refusal::OffDisc));
        assert_eq!(d.bytes(), bytes);
    });
}

#[test]
fn survey() {
    both(|d, _| {
        let s = d.survey().unwrap();
        assert_eq!((s.volume, s.entries), (254, 3));
        assert_eq!((s.free, s.used, s.percent_used), (15, 545, 97));
        // Block 0, three entries, 600 / 254 rounded up, 3 / 254 rounded up.
        assert_eq!(s.archive_blocks, 1 + 3 + 3 + 1);
        // Two pages, four lists.
        assert_eq!(s.links, 6);
    });
}

// Control characters in a name are shown escaped.
#[test]
fn a_name_with_control_characters() {
    let mut d = disk();
    d[at(17, 15) + 11 + 3] = 0x84;
    d[at(17, 15) + 11 + 4] = 0x1B;
    let c = Disk::flat(&d).catalog().unwrap();
    assert_eq!(c[0].name.as_bytes(), b"\x04\x1BNE 7");
    assert_eq!(c[0].name.to_string(), "\\u{4}\\u{1b}NE 7");
    // The same from an archive.
    let bytes = Disk::flat(&d).archive().unwrap();
    let e = Archive::open(&bytes).unwrap().entries().next().unwrap();
    assert_eq!(e.name(), c[0].name);
    let printed = format!("{}", e.name());
    assert_eq!(printed, "\\u{4}\\u{1b}NE 7");
    assert!(!printed.contains(|c: char| c.is_control()));
    assert_eq!(format!("[{:>16}]", e.name()), "[ \\u{4}\\u{1b}NE 7]");
}

// The longest files: a length of 65,535, and all of 256 sectors.
#[test]
fn the_longest_files() {
    let mut d = common::large(1);
    assert_eq!(Disk::flat(&d).file(0).unwrap(), vec![0xFF; 65_535]);
    // One pair less: 65,536 bytes, of which 65,532 do not hold 65,535.
    d[at(20, 3) + 12 + 2 * (common::LARGE[2] - 1)] = 0;
    assert_eq!(Disk::flat(&d).file(0).unwrap(), vec![0xFF; 65_536]);
    assert_eq!(Disk::flat(&d).fetch("BIG").unwrap().len(), 65_536);
    assert_eq!(Disk::flat(&d).lists(0).unwrap().len(), 3);
}

// The most pages, all entries live, and the longest chain of lists.
#[test]
fn the_largest_catalog_and_the_longest_chain() {
    let mut d = vec![0u8; common::SIZE];
    // Sectors 1 to 15 of tracks 1 to 34: a catalog link has no zero.
    let places: Vec<(usize, usize)> = (1..35).flat_map(|t| (1..16).map(move |s| (t, s))).collect();
    let start = places.iter().position(|&p| p == (17, 1)).unwrap();
    let chain: Vec<_> = places[start..]
        .iter()
        .chain(&places[..start])
        .copied()
        .collect();
    for (k, &(t, s)) in chain.iter().enumerate() {
        if let Some(&(u, r)) = chain.get(k + 1) {
            d[at(t, s) + 1] = u as u8;
            d[at(t, s) + 2] = r as u8;
        }
        for slot in 0..7 {
            common::entry(&mut d, t, s, slot, (0x10, 0), 1, "X", 0);
        }
    }
    // The catalog call does not follow the entries' lists.
    let v = at(17, 0);
    d[v + 1..v + 3].copy_from_slice(&[17, 1]);
    d[v + 52] = 40;
    d[v + 53] = 13;
    let c = Disk::flat(&d).catalog().unwrap();
    assert_eq!(c.len(), 7 * 34 * 15);
    assert!(c
        .iter()
        .all(|e| e.name == "X" && e.kind == FileType::IntegerBasic));

    // One file whose lists are those 510 sectors but the catalog's page.
    let mut d = vec![0u8; common::SIZE];
    let chain: Vec<_> = places.iter().filter(|&&p| p != (17, 15)).copied().collect();
    for (&(t, s), &(u, r)) in chain.iter().zip(&chain[1..]) {
        d[at(t, s) + 1] = u as u8;
        d[at(t, s) + 2] = r as u8;
    }
    d[v + 1..v + 3].copy_from_slice(&[17, 15]);
    d[v + 52] = 35;
    d[v + 53] = 16;
    common::entry(&mut d, 17, 15, 0, (1, 1), 4, "LONG", 509);
    let disk = Disk::flat(&d);
    let lists = disk.lists(0).unwrap();
    assert_eq!(lists.len(), 509);
    assert_eq!(lists[508], place(34, 15));
    assert_eq!(disk.survey().unwrap().links, 510);
    assert_eq!(disk.file(0).unwrap(), []);
}
