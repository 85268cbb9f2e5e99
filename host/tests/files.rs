// Every file in one go: what the catalog and then file by file give.
mod common;
use common::{at, binary, disk};
use dos33::*;
use std::time::{Duration, Instant};

// How many files there were, or the refusal.
fn agrees(disk: &Disk<'_>) -> Result<usize, Refusal> {
    let files = disk.files();
    match &files {
        Ok(files) => {
            let entries = disk.catalog().unwrap();
            assert_eq!(files.len(), entries.len());
            for (k, (file, entry)) in files.iter().zip(entries).enumerate() {
                assert_eq!(file.entry, entry, "entry {k}");
                assert_eq!(file.bytes, disk.file(k).unwrap(), "bytes of {k}");
            }
        }
        Err(r) => assert_eq!(disk.file(0), Err(*r)),
    }
    files.map(|files| files.len())
}

#[test]
fn the_small_disk() {
    let d = disk();
    let flat = Disk::flat(&d);
    assert_eq!(agrees(&flat), Ok(3));
    let nibbles = Disk::nibbles(&flat.nibblize().unwrap()).unwrap();
    assert_eq!(agrees(&nibbles), Ok(3));
    let files = flat.files().unwrap();
    assert_eq!(files, nibbles.files().unwrap());
    let names: Vec<&str> = files.iter().map(|f| f.entry.name.as_str()).collect();
    assert_eq!(names, ["LINE 7", "NOTES", "LINE 7"]);
    assert_eq!(files[0].bytes, binary());
    assert_eq!(files[1].bytes, []);
    assert_eq!(files[2].bytes, [11, 22, 33]);
    assert_eq!(files[2].entry.list, Location::new(Track(20), Sector(15)));
}

#[test]
fn no_file_and_large_ones() {
    assert_eq!(agrees(&Disk::flat(&common::large(0))), Ok(0));
    assert_eq!(agrees(&Disk::flat(&common::large(1))), Ok(1));
    assert_eq!(agrees(&Disk::flat(&common::large(15))), Ok(15));
}

// An archive of over 4,096 blocks: in one go the files are refused as 7, one by one they are given.
#[test]
fn an_archive_that_is_overlong() {
    let mut d = common::large(16);
    // One of them is no Binary file.
    d[at(17, 15) + 11 + 35 + 2] = 0;
    common::entry(&mut d, 17, 13, 2, (20, 1), 4, "LAST", 260);
    let flat = Disk::flat(&d);
    assert_eq!(flat.archive(), Err(Refusal::Overlong));
    assert_eq!(flat.files(), Err(Refusal::Overlong));
    let entries = flat.catalog().unwrap();
    assert_eq!((entries.len(), entries[16].name.as_str()), (17, "LAST"));
    assert_eq!(flat.file(0), Ok(vec![0xFF; 65_535]));
    assert_eq!(flat.file(1), Ok(Vec::new()));
    assert_eq!(flat.file(16), Ok(vec![0xFF; 65_535]));
    assert_eq!(flat.fetch("LAST"), Ok(vec![0xFF; 65_535]));
    // Refused for another reason: that one.
    d[at(20, 3) + 1] = 20;
    assert_eq!(Disk::flat(&d).files(), Err(Refusal::CutLink));
}

#[test]
fn the_overlong_sample() {
    let flat = Disk::flat(include_bytes!("../../samples/overlong.dsk"));
    assert!(flat.survey().unwrap().archive_blocks > 4096);
    assert_eq!(flat.files(), Err(Refusal::Overlong));
    let entries = flat.catalog().unwrap();
    assert_eq!(entries.len(), 16);
    assert_eq!(flat.file(15).unwrap().len(), 65_532);
    assert_eq!(flat.fetch(entries[0].name).unwrap().len(), 65_532);
}

// As many full pages as links can lead to, each of them also a full list of every entry: one pass over the disk follows 1.8 million
// links and looks at 222 million pairs.
#[test]
fn very_many_entries() {
    let mut d = vec![0u8; common::SIZE];
    let v = at(17, 0);
    d[v + 1..v + 3].copy_from_slice(&[1, 1]);
    d[v + 52..v + 54].copy_from_slice(&[35, 16]);
    let pages: Vec<(usize, usize)> = (1..35).flat_map(|t| (1..16).map(move |s| (t, s))).collect();
    for (k, &(track, sector)) in pages.iter().enumerate() {
        // Entries with their list at 1/1, the first page. Every two bytes are a place on the disk.
        let page = at(track, sector);
        d[page + 11..page + 256].fill(1);
        for slot in 0..7 {
            d[page + 11 + 35 * slot + 2] = 4;
        }
        if let Some(&(t, s)) = pages.get(k + 1) {
            d[page + 1..page + 3].copy_from_slice(&[t as u8, s as u8]);
        }
    }
    let flat = Disk::flat(&d);
    let start = Instant::now();
    assert_eq!(flat.files(), Err(Refusal::Overlong));
    assert!(start.elapsed() < Duration::from_secs(60));
    // It is a good disk, and it is served. The first sector of every file is 1/4, whose bytes 2 and 3 are 5 and 0.
    let survey = flat.survey().unwrap();
    assert_eq!((survey.entries, survey.links), (3570, 510 + 3570 * 510));
    let holders = flat.holders().unwrap();
    assert_eq!((holders.held_once, holders.shared), (1, 510));
    let entries = flat.catalog().unwrap();
    assert_eq!((entries.len(), entries[3569].sectors), (3570, 0x101));
    assert_eq!(flat.file(3569), Ok(vec![0; 5]));
    assert_eq!(flat.fetch(entries[3569].name), Ok(vec![0; 5]));
}

#[test]
fn refusals() {
    assert_eq!(Disk::flat(&[]).files(), Err(Refusal::OffSize));
    for (i, byte, due) in [
        (at(17, 0) + 52, 0, Refusal::NoTable),
        (at(17, 15) + 1, 35, Refusal::OffDisc),
        (at(17, 14) + 2, 16, Refusal::OffDisc),
        (at(18, 14) + 1, 18, Refusal::CutLink),
        (at(19, 15) + 12, 35, Refusal::OffDisc),
        (at(17, 14) + 11 + 35 * 6 + 3, 0x80, Refusal::BadLetter),
    ] {
        let mut d = disk();
        // So that the page's link is one.
        if i == at(17, 14) + 2 {
            d[at(17, 14) + 1] = 17;
        }
        d[i] = byte;
        assert_eq!(Disk::flat(&d).files(), Err(due));
        assert_eq!(agrees(&Disk::flat(&d)), Err(due));
    }
    let mut d = disk();
    d[at(18, 14) + 1..at(18, 14) + 3].copy_from_slice(&[18, 15]);
    assert_eq!(agrees(&Disk::flat(&d)), Err(Refusal::Ring));
}

// The full catalog page, all types, and lengths around each limit of a block and of a sector.
#[test]
fn lengths_around_the_limits() {
    for lengths in [
        [0, 1, 253, 254, 255, 252, 508],
        [509, 507, 762, 763, 511, 512, 513],
        [2, 3, 4, 65_535, 65_531, 1016, 1017],
    ] {
        let mut d = vec![0u8; common::SIZE];
        let v = at(17, 0);
        d[v + 1..v + 3].copy_from_slice(&[17, 15]);
        d[v + 52] = 35;
        d[v + 53] = 16;
        for (k, n) in lengths.into_iter().enumerate() {
            // Four sectors each; a length that does not fit is all 1,024 bytes.
            common::entry(&mut d, 17, 15, k, (18 + k as u8, 0), 4, "F", n as u16);
            for p in 0..4 {
                let pair = at(18 + k, 0) + 12 + 2 * p;
                d[pair] = 18 + k as u8;
                d[pair + 1] = 1 + p as u8;
            }
            let data = at(18 + k, 1);
            for b in 0..1024 {
                d[data + b] = (b * b / 11 + k) as u8;
            }
            d[data + 2..data + 4].copy_from_slice(&(n as u16).to_le_bytes());
        }
        let flat = Disk::flat(&d);
        assert_eq!(agrees(&flat), Ok(7));
        for (file, n) in flat.files().unwrap().iter().zip(lengths) {
            assert_eq!(file.bytes.len(), if n <= 1020 { n } else { 1024 });
        }
    }
}
