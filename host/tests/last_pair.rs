// The last pair of a list: bytes 254 and 255 of its sector are a pair like the rest. On disks of 16 and of 13
// sectors a track.
mod common;
use common::{at_of, forms, record, EDITIONS};
use dos33::raw::{dos33_pair_run, dos33_pairs};
use dos33::*;

// A list, and how many pairs it has.
type List = ((u8, u8), usize);
const ALL_BUT_ONE: List = ((20, 1), LIST_PAIRS - 1);
const FULL: List = ((20, 1), LIST_PAIRS);
const NEXT: List = ((20, 2), 3);

fn location((track, sector): (u8, u8)) -> Location {
    Location::new(Track(track), Sector(sector))
}

// The sector that pair number k of the file names, over all its lists.
fn place(per: usize, k: usize) -> (u8, u8) {
    ((1 + k / per) as u8, (k % per) as u8)
}

fn at(per: usize, (track, sector): (u8, u8)) -> usize {
    at_of(per, track.into(), sector.into())
}

// A disk with one file, the Binary "LONG" of these lists. Its sector number k is full of k + 1, and its length
// is that of all of them.
fn long(per: usize, lists: &[List]) -> Vec<u8> {
    let mut d = vec![0; 256 * TRACKS * per];
    let vtoc = at(per, (17, 0));
    d[vtoc + 1..vtoc + 3].copy_from_slice(&[17, 2]);
    d[vtoc + 6] = 254;
    d[vtoc + 52] = TRACKS as u8;
    d[vtoc + 53] = per as u8;
    let page = at(per, (17, 2));
    record(&mut d, page, 0, lists[0].0, 4, "LONG", 200);
    let mut sectors = 0;
    for (k, &(list, count)) in lists.iter().enumerate() {
        let start = at(per, list);
        if let Some(&((track, sector), _)) = lists.get(k + 1) {
            d[start + 1..start + 3].copy_from_slice(&[track, sector]);
        }
        for pair in 0..count {
            let (track, sector) = place(per, sectors);
            d[start + 12 + 2 * pair..start + 14 + 2 * pair].copy_from_slice(&[track, sector]);
            let data = at(per, (track, sector));
            d[data..data + 256].fill(sectors as u8 + 1);
            sectors += 1;
        }
    }
    give_length(&mut d, per, sectors);
    d
}

// The length of so many sectors, but for the four bytes of address and length.
fn give_length(d: &mut [u8], per: usize, sectors: usize) {
    let length = (256 * sectors - 4) as u16;
    let first = at(per, place(per, 0));
    d[first + 2..first + 4].copy_from_slice(&length.to_le_bytes());
}

// The bytes of a file of so many sectors.
fn contents(sectors: usize) -> Vec<u8> {
    (0..sectors)
        .flat_map(|k| [k as u8 + 1; 256])
        .skip(4)
        .collect()
}

fn last_byte(per: usize, list: (u8, u8)) -> usize {
    at(per, list) + 255
}

#[test]
fn the_pairs_fill_a_sector_from_byte_12_on() {
    assert_eq!(12 + 2 * LIST_PAIRS, 256);
}

#[test]
fn every_call_has_the_last_pair() {
    for per in EDITIONS {
        for lists in [
            &[ALL_BUT_ONE][..],
            &[FULL],
            &[ALL_BUT_ONE, NEXT],
            &[FULL, NEXT],
        ] {
            let d = long(per, lists);
            for disk in forms(&d) {
                has_all(&disk, per, lists);
            }
        }
    }
}

fn has_all(disk: &Disk<'_>, per: usize, lists: &[List]) {
    let sectors: usize = lists.iter().map(|l| l.1).sum();
    let due = contents(sectors);
    assert_eq!(disk.file(0).unwrap(), due);
    assert_eq!(disk.fetch("LONG").unwrap(), due);
    let files = disk.files().unwrap();
    assert_eq!((files.len(), &files[0].bytes), (1, &due));

    let places: Vec<Location> = lists.iter().map(|l| location(l.0)).collect();
    assert_eq!(disk.lists(0).unwrap(), places);
    let mut before = 0;
    for &((track, sector), count) in lists {
        let pairs: Vec<Location> = (before..before + count)
            .map(|k| location(place(per, k)))
            .collect();
        assert_eq!(disk.pairs(Track(track), Sector(sector)).unwrap(), pairs);
        let mut run = [TrackSectorPair::default(); LIST_PAIRS];
        let n = disk.pair_run(Track(track), Sector(sector), &mut run);
        assert_eq!(n, Ok(count));
        assert!(run[..count].iter().map(|&p| Location::from(p)).eq(pairs));
        before += count;
    }

    let survey = disk.survey().unwrap();
    assert_eq!(survey.entries, 1);
    // Block 0, the entry, and 254 bytes a block.
    assert_eq!(survey.archive_blocks, 2 + due.len().div_ceil(254) as u64);
    // One page, and the lists.
    assert_eq!(survey.links, 1 + lists.len() as u64);

    let archive = disk.archive().unwrap();
    assert_eq!(archive.len() as u64, 256 * survey.archive_blocks);
    let opened = Archive::open(&archive).unwrap();
    assert_eq!(opened.entries().next().unwrap().to_vec(), due);
    disk.check(&archive).unwrap();
}

// Between the data of the pair before it and that of the next list's first.
#[test]
fn the_data_of_the_last_pair_is_in_its_place() {
    for per in EDITIONS {
        let d = long(per, &[FULL, NEXT]);
        let file = Disk::flat(&d).file(0).unwrap();
        for k in [LIST_PAIRS - 2, LIST_PAIRS - 1, LIST_PAIRS] {
            assert_eq!(file[256 * k - 4..][..256], [k as u8 + 1; 256]);
        }
    }
}

// The same contents on either edition: one archive.
#[test]
fn one_archive_for_both_editions() {
    let [of_16, of_13] = EDITIONS.map(|per| long(per, &[FULL, NEXT]));
    let archive = Disk::flat(&of_16).archive().unwrap();
    assert_eq!(Disk::flat(&of_13).archive().unwrap(), archive);
    let shorter = long(SECTORS_PER_TRACK, &[ALL_BUT_ONE, NEXT]);
    assert_eq!(
        Disk::flat(&shorter).check(&archive),
        Err(Refusal::NotItsReturn)
    );
}

// The data of the last pair is in the archive; a sector that no pair names is not.
#[test]
fn the_archive_is_of_all_pairs() {
    for per in EDITIONS {
        let data = at(per, place(per, LIST_PAIRS - 1)) + 255;
        for (lists, due) in [
            (&[FULL][..], Err(Refusal::NotItsReturn)),
            (&[FULL, NEXT], Err(Refusal::NotItsReturn)),
            (&[ALL_BUT_ONE], Ok(())),
        ] {
            let d = long(per, lists);
            let archive = Disk::flat(&d).archive().unwrap();
            let mut changed = d.clone();
            changed[data] ^= 0xFF;
            assert_eq!(Disk::flat(&d).check(&archive), Ok(()));
            assert_eq!(Disk::flat(&changed).check(&archive), due);
        }
        // Another sector in the last pair.
        let mut d = long(per, &[FULL]);
        let archive = Disk::flat(&d).archive().unwrap();
        d[last_byte(per, FULL.0)] ^= 1;
        let due = Err(Refusal::NotItsReturn);
        assert_eq!(Disk::flat(&d).check(&archive), due);
    }
}

// Every call that follows the pairs refuses it; those that show a list's pairs have it.
#[test]
fn a_last_pair_off_the_disk_3() {
    for per in EDITIONS {
        let before = ((20, 3), 3);
        for lists in [&[FULL][..], &[FULL, NEXT], &[before, FULL]] {
            let mut d = long(per, lists);
            let archive = Disk::flat(&d).archive().unwrap();
            let last = last_byte(per, FULL.0);
            for off in [(35, 0), (1, per as u8), (34, per as u8), (255, 255)] {
                d[last - 1..=last].copy_from_slice(&[off.0, off.1]);
                for disk in forms(&d) {
                    refuses(&disk, &archive);
                    let pairs = disk.pairs(Track(20), Sector(1)).unwrap();
                    assert_eq!(pairs.len(), LIST_PAIRS);
                    assert_eq!(pairs[LIST_PAIRS - 1], location(off));
                    let mut run = [TrackSectorPair::default(); LIST_PAIRS];
                    let n = disk.pair_run(Track(20), Sector(1), &mut run);
                    assert_eq!(n, Ok(LIST_PAIRS));
                    assert!(run.iter().map(|&p| Location::from(p)).eq(pairs));
                }
            }
        }
    }
}

fn refuses(disk: &Disk<'_>, archive: &[u8]) {
    let off = Refusal::OffDisc;
    assert_eq!(disk.survey().unwrap_err(), off);
    assert_eq!(disk.fetch("LONG"), Err(off));
    // Before 18.
    assert_eq!(disk.fetch("NONE"), Err(off));
    assert_eq!(disk.file(0), Err(off));
    assert_eq!(disk.file(1), Err(off));
    assert_eq!(disk.lists(0), Err(off));
    assert_eq!(disk.files().unwrap_err(), off);
    assert_eq!(disk.archive(), Err(off));
    assert_eq!(disk.check(archive), Err(off));
    assert_eq!(disk.catalog().unwrap().len(), 1);
}

// A zero track in the last pair ends the list, whatever its sector is.
#[test]
fn a_last_pair_with_track_0_is_the_end() {
    for per in EDITIONS {
        for sector in [0, 1, 255] {
            let mut d = long(per, &[FULL]);
            let last = last_byte(per, FULL.0);
            d[last - 1..=last].copy_from_slice(&[0, sector]);
            give_length(&mut d, per, LIST_PAIRS - 1);
            has_all(&Disk::flat(&d), per, &[ALL_BUT_ONE]);
        }
    }
}

// The maximum that the VTOC states is shown; no list goes by it.
#[test]
fn the_stated_maximum_is_not_used() {
    for per in EDITIONS {
        for stated in [0, 1, LIST_PAIRS as u8 - 1, LIST_PAIRS as u8, 255] {
            let mut d = long(per, &[FULL, NEXT]);
            d[at(per, (17, 0)) + 39] = stated;
            has_all(&Disk::flat(&d), per, &[FULL, NEXT]);
            assert_eq!(Disk::flat(&d).vtoc().unwrap().pair_maximum, stated);
        }
    }
}

const OLD: TrackSectorPair = TrackSectorPair {
    track_number: 0xA7,
    sector_number: 0x3C,
};
const OLD_LENGTH: u64 = 0xDEAD_BEEF;

// The run stands between neighbours that are not lent.
#[test]
fn a_run_for_all_pairs_and_for_one_less() {
    for per in EDITIONS {
        let d = long(per, &[FULL]);
        let call = |room: usize| {
            let mut all = [OLD; LIST_PAIRS + 8];
            let mut length = OLD_LENGTH;
            let run = all[4..4 + room].as_mut_ptr();
            let number =
                unsafe { dos33_pair_run(d.as_ptr(), d.len(), 20, 1, run, room, &mut length) };
            (number, length, all)
        };
        let untouched = [OLD; LIST_PAIRS + 8];
        for room in [0, 1, LIST_PAIRS - 1] {
            assert_eq!(call(room), (12, OLD_LENGTH, untouched));
        }
        let (number, length, all) = call(LIST_PAIRS);
        assert_eq!((number, length), (0, LIST_PAIRS as u64));
        let due = (0..LIST_PAIRS).map(|k| location(place(per, k)));
        let run = &all[4..4 + LIST_PAIRS];
        assert!(run.iter().map(|&p| Location::from(p)).eq(due));
        assert_eq!(all[..4], [OLD; 4]);
        assert_eq!(all[4 + LIST_PAIRS..], [OLD; 4]);
    }
}

#[test]
fn bytes_for_all_pairs_and_for_less() {
    const NEED: usize = 2 * LIST_PAIRS;
    for per in EDITIONS {
        let d = long(per, &[FULL]);
        let call = |room: usize| {
            let mut all = [0xA7; NEED + 8];
            let mut length = OLD_LENGTH;
            let out = all[4..4 + room].as_mut_ptr();
            let number = unsafe { dos33_pairs(d.as_ptr(), d.len(), 20, 1, out, room, &mut length) };
            (number, length, all)
        };
        for room in [0, NEED - 2, NEED - 1] {
            assert_eq!(call(room), (12, OLD_LENGTH, [0xA7; NEED + 8]));
        }
        let mut due = [0xA7; NEED + 8];
        let list = at(per, FULL.0);
        due[4..4 + NEED].copy_from_slice(&d[list + 12..list + 256]);
        assert_eq!(call(NEED), (0, NEED as u64, due));
    }
}

// A full list on the last sector: its last pair ends with the disk, and what lies behind the disk is not read.
#[test]
fn a_full_list_at_the_end_of_the_disk() {
    for per in EDITIONS {
        let end = ((34, per as u8 - 1), LIST_PAIRS);
        let d = long(per, &[end]);
        assert_eq!(last_byte(per, end.0), d.len() - 1);
        for behind in [0, 1, 255] {
            let more = [&d[..], &[behind; 256]].concat();
            let disk = Disk::flat(&more[..d.len()]);
            has_all(&disk, per, &[end]);
        }
        // The last byte is the sector of the last pair.
        let mut other = d.clone();
        *other.last_mut().unwrap() = 0;
        let (track, sector) = place(per, LIST_PAIRS - 1);
        assert_ne!(sector, 0);
        let pairs = Disk::flat(&other).pairs(Track(34), Sector(end.0 .1));
        assert_eq!(pairs.unwrap()[LIST_PAIRS - 1], location((track, 0)));
        *other.last_mut().unwrap() = per as u8;
        assert_eq!(Disk::flat(&other).file(0), Err(Refusal::OffDisc));
    }
}
