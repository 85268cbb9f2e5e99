// A catalog off track 17: its first page is where bytes 1 and 2 of the VTOC say. On disks of 16 and of 13 sectors a track.
mod common;
use common::{at_of, disk_of, forms, record, Dice, EDITIONS};
use dos33::raw::{dos33_catalog, dos33_survey};
use dos33::*;

type Place = (u8, u8);

fn at(per: usize, (track, sector): Place) -> usize {
    at_of(per, track.into(), sector.into())
}

fn all_places(per: usize) -> Vec<Place> {
    (0..TRACKS as u8)
        .flat_map(|t| (0..per as u8).map(move |s| (t, s)))
        .collect()
}

// The pages of `disk_of`.
fn pages(per: usize) -> [Place; 2] {
    [(17, per as u8 - 1), (17, per as u8 - 2)]
}

// The places that `disk_of` leaves unused.
fn unused(per: usize) -> Vec<Place> {
    let d = disk_of(per);
    let blank = |p: &Place| d[at(per, *p)..][..256].iter().all(|b| *b == 0);
    all_places(per).into_iter().filter(blank).collect()
}

// Bytes 1 and 2 of a page, and of the VTOC.
fn link(d: &mut [u8], per: usize, from: Place, to: Place) {
    let sector = at(per, from);
    d[sector + 1..sector + 3].copy_from_slice(&[to.0, to.1]);
}

fn point(d: &mut [u8], per: usize, first: Place) {
    link(d, per, (17, 0), first);
}

fn copy(d: &mut [u8], per: usize, from: Place, to: Place) {
    let from = at(per, from);
    d.copy_within(from..from + 256, at(per, to));
}

// `disk_of` with its first page at another place. Where it was is now a page that is refused as 6, if it is read.
fn moved(per: usize, first: Place) -> Vec<u8> {
    let mut d = disk_of(per);
    let before = pages(per)[0];
    copy(&mut d, per, before, first);
    point(&mut d, per, first);
    d[at(per, before) + 11 + 3] = 0x80;
    d
}

// All that is read of a disk but the table.
fn same(a: &Disk<'_>, b: &Disk<'_>) {
    assert_eq!(a.catalog(), b.catalog());
    assert_eq!(a.files(), b.files());
    assert_eq!(a.file(0), b.file(0));
    assert_eq!(a.lists(0), b.lists(0));
    assert_eq!(a.fetch("LINE 7"), b.fetch("LINE 7"));
    assert_eq!(a.survey(), b.survey());
    let held = |d: &Disk<'_>| d.holders().map(|h| (h.unheld, h.held_once, h.shared));
    assert_eq!(held(a), held(b));
    let archive = a.archive().unwrap();
    assert_eq!(b.archive().as_ref(), Ok(&archive));
    assert_eq!(b.check(&archive), Ok(()));
}

// What every call that reads the catalog says. The table is shown.
fn refused(d: &[u8], due: Refusal) {
    let disk = Disk::flat(d);
    assert!(disk.vtoc().is_ok());
    assert_eq!(disk.catalog(), Err(due));
    assert_eq!(disk.files(), Err(due));
    assert_eq!(disk.file(0), Err(due));
    assert_eq!(disk.file(1_000_000), Err(due));
    assert_eq!(disk.lists(0), Err(due));
    assert_eq!(disk.fetch("LINE 7"), Err(due));
    assert_eq!(disk.survey(), Err(due));
    assert_eq!(disk.holders(), Err(due));
    assert_eq!(disk.archive(), Err(due));
    assert_eq!(disk.check(&[]), Err(due));
}

#[test]
fn the_first_page_may_stand_anywhere() {
    for per in EDITIONS {
        let good = disk_of(per);
        let places = unused(per);
        let tracks: Vec<u8> = (0..35).collect();
        assert!(tracks.iter().all(|t| places.iter().any(|p| p.0 == *t)));
        for first in places {
            let d = moved(per, first);
            same(&Disk::flat(&good), &Disk::flat(&d));
            let catalog = Disk::flat(&d).vtoc().unwrap().catalog;
            assert_eq!(catalog, Location::new(Track(first.0), Sector(first.1)));
        }
    }
}

#[test]
fn flat_or_as_nibbles() {
    for per in EDITIONS {
        let good = disk_of(per);
        for first in [(0, 0), (0, 5), (1, per as u8 - 1), (34, 0)] {
            let d = moved(per, first);
            for a in forms(&good) {
                for b in forms(&d) {
                    same(&a, &b);
                }
            }
        }
    }
}

#[test]
fn one_archive_on_both_editions() {
    for a in EDITIONS {
        let archive = Disk::flat(&disk_of(a)).archive().unwrap();
        for b in EDITIONS {
            assert_eq!(Disk::flat(&moved(b, (0, 0))).check(&archive), Ok(()));
        }
    }
}

#[test]
fn pages_by_chance() {
    let mut dice = Dice(0x0800_0008);
    for per in EDITIONS {
        let good = disk_of(per);
        let free = unused(per);
        let [first, second] = pages(per);
        for _ in 0..300 {
            let a = free[dice.roll(free.len())];
            let b = free[dice.roll(free.len())];
            let mut d = moved(per, a);
            // A link can name neither track 0 nor a sector 0, and no page twice.
            if a != b && b.0 != 0 && b.1 != 0 {
                copy(&mut d, per, second, b);
                link(&mut d, per, a, b);
                d[at(per, second)..][..256].fill(0x80);
            }
            same(&Disk::flat(&good), &Disk::flat(&d));
            // Back to track 17, where the page is refused.
            point(&mut d, per, first);
            refused(&d, Refusal::BadLetter);
        }
    }
}

#[test]
fn off_the_disk_is_3() {
    for per in EDITIONS {
        let last = per as u8 - 1;
        for track in 0..=255 {
            for sector in [0, last, last + 1, 16, 17, 255] {
                if track < 35 && sector <= last {
                    continue;
                }
                let mut d = disk_of(per);
                point(&mut d, per, (track, sector));
                refused(&d, Refusal::OffDisc);
                assert_eq!(
                    Disk::flat(&d).vtoc().unwrap().catalog,
                    Location::new(Track(track), Sector(sector))
                );
            }
        }
    }
}

#[test]
fn after_2_and_before_4_and_6() {
    for per in EDITIONS {
        let v = at(per, (17, 0));
        let [first, second] = pages(per);
        let mut d = disk_of(per);
        point(&mut d, per, (35, 0));
        // A ring and 80h on the pages of track 17, which are not read.
        link(&mut d, per, second, first);
        d[at(per, first) + 11 + 3] = 0x80;
        refused(&d, Refusal::OffDisc);
        d[v + 52] = 36;
        assert_eq!(Disk::flat(&d).vtoc(), Err(Refusal::NoTable));
        assert_eq!(Disk::flat(&d).catalog(), Err(Refusal::NoTable));
        assert_eq!(Disk::flat(&d).survey(), Err(Refusal::NoTable));
        d.push(0);
        assert_eq!(Disk::flat(&d).catalog(), Err(Refusal::OffSize));
    }
}

#[test]
fn nothing_lent_changes() {
    for per in EDITIONS {
        let mut d = disk_of(per);
        for first in [(35, 1), (255, 255), (16, 16)] {
            point(&mut d, per, first);
            let mut out = [0x55; 4096];
            let mut length = 99;
            let (o, n) = (out.as_mut_ptr(), out.len());
            let number = unsafe { dos33_catalog(d.as_ptr(), d.len(), o, n, &mut length) };
            assert_eq!((number, length), (3, 99));
            assert!(out.iter().all(|b| *b == 0x55));
            let mut fields = [77; 7];
            let number = unsafe { dos33_survey(d.as_ptr(), d.len(), fields.as_mut_ptr(), 7) };
            assert_eq!((number, fields), (3, [77; 7]));
        }
    }
}

#[test]
fn rings_through_a_page_off_track_17() {
    for per in EDITIONS {
        let first = (1, 3);
        let [_, second] = pages(per);
        let mut d = moved(per, first);
        link(&mut d, per, second, first);
        refused(&d, Refusal::Ring);
        link(&mut d, per, second, second);
        refused(&d, Refusal::Ring);
        link(&mut d, per, first, first);
        refused(&d, Refusal::Ring);
        // On to a page off the disk.
        link(&mut d, per, first, (34, per as u8));
        refused(&d, Refusal::OffDisc);
        // A name with 80h on it comes before its link.
        d[at(per, first) + 11 + 3] = 0x80;
        refused(&d, Refusal::BadLetter);
    }
}

#[test]
fn a_zero_in_a_link_still_ends_the_catalog() {
    for per in EDITIONS {
        for first in [(0, 0), (0, 7), (7, 0), (7, 7)] {
            for end in [(0, 7), (7, 0), (0, 0), (200, 0)] {
                let mut d = moved(per, first);
                link(&mut d, per, first, end);
                let all = Disk::flat(&d).catalog().unwrap();
                let names: Vec<&str> = all.iter().map(|e| e.name.as_str()).collect();
                assert_eq!(names, ["LINE 7", "NOTES"]);
                // The page, and the lists of the two: 2 and 1.
                assert_eq!(Disk::flat(&d).survey().unwrap().links, 4);
            }
        }
    }
}

#[test]
fn the_table_as_the_first_page() {
    for per in EDITIONS {
        let mut d = disk_of(per);
        point(&mut d, per, (17, 0));
        // Its link is 17/0, which ends the catalog; none of its bytes is a list track in use.
        assert_eq!(Disk::flat(&d).catalog(), Ok(Vec::new()));
        assert_eq!(Disk::flat(&d).survey().unwrap().links, 1);
        // Byte 46 is where a second entry has its list's track.
        d[at(per, (17, 0)) + 46] = 20;
        d[at(per, (17, 0)) + 47] = per as u8 - 1;
        assert_eq!(Disk::flat(&d).catalog().unwrap().len(), 1);
    }
}

// The recogniser goes on asking for 17, 15, 3. A disk that it does not know is read all the same.
#[test]
fn the_recogniser_is_as_it_was() {
    let header = [0x01, 0xA5, 0x27, 0xC9, 0x09, 0xD0, 0x18, 0xA5, 0x2B];
    let mut d = disk_of(SECTORS_PER_TRACK);
    d[..9].copy_from_slice(&header);
    assert_eq!(format_from_data(&d), Ok(true));
    let mut d = moved(SECTORS_PER_TRACK, (16, 15));
    d[..9].copy_from_slice(&header);
    assert_eq!(format_from_data(&d), Ok(false));
    assert_eq!(Disk::flat(&d).catalog().unwrap().len(), 3);
}

// On a disk of 16: the first page on track 0, then every sector that a link can name.
#[test]
fn the_largest_catalog() {
    let per = SECTORS_PER_TRACK;
    let mut d = vec![0; DISK_SIZE];
    let v = at(per, (17, 0));
    d[v + 52] = 35;
    d[v + 53] = 16;
    point(&mut d, per, (0, 0));
    let linkable = all_places(per).into_iter().filter(|p| p.0 != 0 && p.1 != 0);
    let chain: Vec<Place> = std::iter::once((0, 0)).chain(linkable).collect();
    for (k, &page) in chain.iter().enumerate() {
        if let Some(&next) = chain.get(k + 1) {
            link(&mut d, per, page, next);
        }
        for slot in 0..7 {
            record(&mut d, at(per, page), slot, (16, 0), 1, "X", 0);
        }
    }
    assert_eq!(chain.len(), 511);
    assert_eq!(Disk::flat(&d).catalog().unwrap().len(), 7 * 511);
    link(&mut d, per, chain[510], chain[1]);
    assert_eq!(Disk::flat(&d).catalog(), Err(Refusal::Ring));
}
