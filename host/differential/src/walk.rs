// A disk's pages and lists as far as links lead, its catalog by the rule, and the disks that are not compared.
use std::collections::HashSet;

use crate::disks::{start, Place, SIZE};

// The pairs that image-rider reads of a list. Ours has `dos33::LIST_PAIRS`, its whole sector.
pub const RUST_PAIRS: usize = 121;

// The track on which image-rider reads the first page. Ours is at bytes 1 and 2 of the VTOC.
pub const RUST_TRACK: u8 = 17;

// Why a disk is not compared with image-rider.
#[derive(Clone, Copy, Debug, PartialEq, Eq, PartialOrd, Ord)]
pub enum LeftOut {
    // Byte 1 of its VTOC is not `RUST_TRACK`.
    MovedCatalog,
    // A list of a live entry has more pairs than `RUST_PAIRS`.
    FullList,
}

impl LeftOut {
    pub fn text(self) -> String {
        match self {
            LeftOut::MovedCatalog => format!(
                "image-rider reads the first page on track {RUST_TRACK}, and the VTOC of this disk names another"
            ),
            LeftOut::FullList => format!(
                "image-rider reads {RUST_PAIRS} pairs of a list, and a list of this disk has more"
            ),
        }
    }
}

// Where links lead from a first place: the places on the disk, in order; where it ends; whether it leads back.
pub struct Chain {
    pub places: Vec<Place>,
    pub end: Place,
    pub ring: bool,
}

fn on_disk(place: Place) -> bool {
    place.0 <= 34 && place.1 <= 15
}

// A link with a zero is the last.
fn follow(disk: &[u8], first: Place) -> Chain {
    let mut seen = HashSet::new();
    let mut places = Vec::new();
    let mut place = first;
    let mut ring = false;
    while on_disk(place) {
        ring = !seen.insert(place);
        if ring {
            break;
        }
        places.push(place);
        let at = start(place);
        place = (disk[at + 1], disk[at + 2]);
        if place.0 == 0 || place.1 == 0 {
            break;
        }
    }
    Chain {
        places,
        end: place,
        ring,
    }
}

// The catalog's, from the place at bytes 1 and 2 of the VTOC on.
pub fn pages(disk: &[u8]) -> Chain {
    let vtoc = start((17, 0));
    follow(disk, (disk[vtoc + 1], disk[vtoc + 2]))
}

// The lists of a file, from its first.
pub fn lists(disk: &[u8], first: Place) -> Chain {
    follow(disk, first)
}

// The records of the live entries on these pages, 35 bytes each.
fn live<'a>(disk: &'a [u8], pages: &'a [Place]) -> impl Iterator<Item = &'a [u8]> {
    let slots = pages
        .iter()
        .flat_map(|page| (0..7).map(|slot| start(*page) + 11 + 35 * slot));
    slots
        .map(|at| &disk[at..at + 35])
        .filter(|record| record[0] != 0 && record[0] != 0xFF)
}

// The first list of each live entry.
pub fn first_lists(disk: &[u8]) -> Vec<Place> {
    let pages = pages(disk).places;
    let lists = live(disk, &pages).map(|record| (record[0], record[1]));
    lists.collect()
}

// The catalog of a disk of 143,360 bytes whose VTOC passes, by the rule of the documents: its entries in 37 bytes each,
// or its number. Of a page 3 and 4 come first, then 6, and then its link.
pub fn catalog(disk: &[u8]) -> Result<Vec<u8>, u8> {
    let chain = pages(disk);
    if live(disk, &chain.places).any(|record| record[3..33].contains(&0x80)) {
        return Err(6);
    }
    if chain.ring {
        return Err(4);
    }
    if chain.places.is_empty() || (chain.end.0 != 0 && chain.end.1 != 0) {
        return Err(3);
    }
    Ok(live(disk, &chain.places).flat_map(listed).collect())
}

fn listed(record: &[u8]) -> Vec<u8> {
    let mut name: Vec<u8> = record[3..33]
        .iter()
        .map(|b| if *b > 0x80 { b - 0x80 } else { *b })
        .collect();
    while name.last() == Some(&0x20) {
        name.pop();
    }
    let kind = match record[2] & 0x7F {
        known @ (0 | 1 | 2 | 4 | 8 | 10 | 20 | 40) => known,
        _ => 41,
    };
    let length = name.len() as u8;
    name.resize(30, 0);
    let mut bytes = vec![record[0], record[1], kind, record[2] >> 7, length];
    bytes.extend(name);
    bytes.extend(&record[33..35]);
    bytes
}

// The number of such a disk: that of its catalog, or else of the first entry that has one.
pub fn number(disk: &[u8]) -> u8 {
    if let Err(number) = catalog(disk) {
        return number;
    }
    let firsts = first_lists(disk).into_iter();
    let mut numbers = firsts.map(|first| entry_refusal(disk, first));
    numbers.find(|number| *number != 0).unwrap_or(0)
}

// The number of an entry: 3, 4, 5 along its lists, then 3 for a pair.
fn entry_refusal(disk: &[u8], first: Place) -> u8 {
    let chain = lists(disk, first);
    let off = |list: &Place| !pairs(disk, *list).into_iter().all(on_disk);
    match (chain.places.is_empty(), chain.ring, chain.end) {
        (_, true, _) => 4,
        (false, _, (0, _)) if chain.places.iter().any(off) => 3,
        (false, _, (0, _)) => 0,
        (false, _, (_, 0)) => 5,
        _ => 3,
    }
}

// The pairs of the list at a place on the disk: up to a zero track, or to the end of the sector.
pub fn pairs(disk: &[u8], list: Place) -> Vec<Place> {
    let at = start(list);
    disk[at + 12..at + 256]
        .chunks_exact(2)
        .map(|pair| (pair[0], pair[1]))
        .take_while(|pair| pair.0 != 0)
        .collect()
}

// All lists that links lead to are looked at, also those that image-rider does not come to since it refuses the
// disk before. It reads no list of a disk that is too short.
fn holds_full_list(disk: &[u8]) -> bool {
    let full = |list: &Place| pairs(disk, *list).len() > RUST_PAIRS;
    disk.len() >= SIZE
        && first_lists(disk)
            .into_iter()
            .any(|first| lists(disk, first).places.iter().any(full))
}

// Whether a disk is not compared, and why. One that is too short to have a byte 1 is compared.
pub fn left_out(disk: &[u8]) -> Option<LeftOut> {
    let track = disk.get(start((17, 0)) + 1);
    if track.is_some_and(|track| *track != RUST_TRACK) {
        return Some(LeftOut::MovedCatalog);
    }
    holds_full_list(disk).then_some(LeftOut::FullList)
}
