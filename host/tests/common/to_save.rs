// Disks to save to.
use super::by_words::{at, held, mark, Place, VTOC};
use super::{Dice, SIZE};
use std::collections::BTreeSet;

pub const TABLE: usize = 4096 * 17;

pub const SIZES: [(usize, usize, usize); 9] = [
    // Bytes, data sectors, lists.
    (0, 1, 1),
    (1, 1, 1),
    (252, 1, 1),
    (253, 2, 1),
    (508, 2, 1),
    (509, 3, 1),
    (31_228, 122, 1),
    (31_229, 123, 2),
    (32_768, 129, 2),
];

pub fn bytes(n: usize) -> Vec<u8> {
    (0..n).map(|k| (k / 253 + k) as u8).collect()
}

pub fn every_sector() -> impl Iterator<Item = Place> {
    (0..35).flat_map(|track| (0..16).map(move |sector| (track, sector)))
}

// Every byte is E5h but for the VTOC and the pages, from 17/15 down; the map calls all free but tracks 0 and 17.
pub fn formatted() -> Vec<u8> {
    let mut d = vec![0xE5; SIZE];
    d[TABLE..TABLE + 4096].fill(0);
    d[TABLE + 1..TABLE + 4].copy_from_slice(&[17, 15, 3]);
    d[TABLE + 6] = 254;
    d[TABLE + 39] = 122;
    d[TABLE + 48..TABLE + 50].copy_from_slice(&[17, 1]);
    d[TABLE + 52..TABLE + 56].copy_from_slice(&[35, 16, 0, 1]);
    for place in every_sector().filter(|p| p.0 != 0 && p.0 != 17) {
        mark(&mut d, place, true);
    }
    for page in (2..=15).rev() {
        let i = at((17, page));
        d[i + 1..i + 3].copy_from_slice(&[17, page - 1]);
    }
    d
}

// The small disk of the other tests, with every sector that no one holds free.
pub fn with_files() -> Vec<u8> {
    let mut d = super::disk();
    let held = held(&d);
    for place in every_sector() {
        mark(&mut d, place, !held.contains(&place));
    }
    d
}

// The sectors that the map calls free, no others.
pub fn only_free(d: &mut [u8], places: &[Place]) {
    for place in every_sector() {
        mark(d, place, places.contains(&place));
    }
}

pub const BAD_NAMES: [&[u8]; 9] = [
    b"",
    b" ",
    b"A ",
    b"A\0B",
    b"\0",
    b"A\x80",
    b"\xC1",
    &[0x41; 31],
    &[0x41; 256 + 5],
];

// Names that are asked for: few, so that they meet.
pub fn a_name(dice: &mut Dice) -> Vec<u8> {
    match dice.roll(20) {
        0 => BAD_NAMES[dice.roll(BAD_NAMES.len())].to_vec(),
        1 => vec![b'A' + dice.roll(2) as u8; 30],
        2 => b" B".to_vec(),
        3 => b"LINE 7".to_vec(),
        _ => vec![b'A' + dice.roll(25) as u8],
    }
}

// The sectors of a disk in any order; a link goes to none on track 0 and none that is a sector 0.
struct Deck(Vec<Place>);

impl Deck {
    fn new(dice: &mut Dice) -> Deck {
        let mut all: Vec<Place> = every_sector().filter(|p| *p != VTOC).collect();
        for k in (1..all.len()).rev() {
            all.swap(k, dice.roll(k + 1));
        }
        Deck(all)
    }

    fn next(&mut self, good: impl Fn(&Place) -> bool) -> Place {
        let k = self.0.iter().rposition(good).unwrap();
        self.0.remove(k)
    }

    fn link(&mut self) -> Place {
        self.next(|p| p.0 != 0 && p.1 != 0)
    }

    fn data(&mut self) -> Place {
        self.next(|p| p.0 != 0)
    }
}

fn put(d: &mut [u8], i: usize, place: Place) {
    d[i..i + 2].copy_from_slice(&[place.0, place.1]);
}

// A file of one to three lists with a few pairs each, any type, locked or not.
fn lay_file(d: &mut [u8], line: usize, deck: &mut Deck, dice: &mut Dice) {
    let mut link = line;
    let mut data = Vec::new();
    for k in 0..[1, 1, 1, 2, 3][dice.roll(5)] {
        let list = if k == 0 { deck.data() } else { deck.link() };
        put(d, link, list);
        link = at(list) + 1;
        let pairs = dice.roll(6);
        d[link..link + 2].fill(0);
        d[at(list) + 12 + 2 * pairs] = 0;
        for p in 0..pairs {
            let place = deck.data();
            put(d, at(list) + 12 + 2 * p, place);
            data.push(place);
        }
    }
    if let Some(first) = data.first() {
        let length = dice.roll(256 * data.len() - 3) as u16;
        d[at(*first) + 2..at(*first) + 4].copy_from_slice(&length.to_le_bytes());
    }
    let kind = [0, 1, 2, 4, 4, 4, 4, 8, 16, 99][dice.roll(10)];
    d[line + 2] = kind | [0, 0x80][dice.roll(2)];
    let name = a_name(dice);
    d[line + 3..line + 33].fill([0xA0, 0x20][dice.roll(2)]);
    let high = [0x80, 0x80, 0][dice.roll(3)];
    for (to, letter) in d[line + 3..line + 33].iter_mut().zip(name) {
        *to = (letter & 0x7F) | high;
    }
    // 80h in a live name is 6.
    for b in &mut d[line + 3..line + 33] {
        *b = if *b == 0x80 { 0 } else { *b };
    }
    d[line + 33] = dice.roll(256) as u8;
}

// A clean disk with pages, files and lines that are not in use anywhere, odd VTOC bytes, and any map of what no one holds.
fn by_chance(dice: &mut Dice) -> Vec<u8> {
    let mut d = vec![dice.roll(256) as u8; SIZE];
    let mut deck = Deck::new(dice);
    d[TABLE + 52..TABLE + 54].copy_from_slice(&[[35, 40][dice.roll(2)], [16, 13][dice.roll(2)]]);
    let fill = dice.roll(9);
    // The first page may be anywhere.
    let mut link = TABLE + 1;
    for k in 0..1 + dice.roll(4) {
        let page = if k == 0 {
            deck.next(|_| true)
        } else {
            deck.link()
        };
        put(&mut d, link, page);
        link = at(page) + 1;
        put(&mut d, link, (dice.roll(2) as u8, 0));
        for line in (0..7).map(|k| at(page) + 11 + 35 * k) {
            if dice.roll(9) < fill {
                lay_file(&mut d, line, &mut deck, dice);
            } else {
                d[line] = [0, 255][dice.roll(2)];
            }
        }
    }
    odd_search(&mut d, dice);
    odd_map(&mut d, dice);
    d
}

// Of the sectors that no one holds all are free, or most, half, few.
pub fn odd_map(d: &mut [u8], dice: &mut Dice) {
    let (some, of) = [(1, 1), (1, 1), (9, 10), (1, 2), (1, 8)][dice.roll(5)];
    let held: BTreeSet<Place> = held(d).into_iter().collect();
    for place in every_sector() {
        let free = dice.roll(of) < some && !held.contains(&place);
        mark(d, place, free);
    }
}

// Any last track and direction.
pub fn odd_search(d: &mut [u8], dice: &mut Dice) {
    d[TABLE + 48] = [dice.roll(35), dice.roll(35), dice.roll(256)][dice.roll(3)] as u8;
    d[TABLE + 49] = [1, 255, 255, dice.roll(256)][dice.roll(4)] as u8;
}

/// A clean disk: one that was just formatted, the small one, or one by chance.
pub fn start(dice: &mut Dice) -> Vec<u8> {
    match dice.roll(10) {
        0 => formatted(),
        1 => {
            let mut d = formatted();
            odd_search(&mut d, dice);
            d
        }
        2 => with_files(),
        _ => by_chance(dice),
    }
}
