// A small disk, built byte by byte, of 16 or of 13 sectors a track.
#![allow(dead_code)]

pub mod by_words;
pub mod five_three;
pub mod ops;
pub mod to_save;

use dos33::{Disk, LIST_PAIRS, SECTORS_PER_TRACK, SECTORS_PER_TRACK_13};

pub const SIZE: usize = 143_360;
pub const SIZE_13: usize = 116_480;
pub const EDITIONS: [usize; 2] = [SECTORS_PER_TRACK, SECTORS_PER_TRACK_13];

pub fn at(track: usize, sector: usize) -> usize {
    at_of(16, track, sector)
}

pub fn at_13(track: usize, sector: usize) -> usize {
    at_of(13, track, sector)
}

/// With so many sectors a track.
pub fn at_of(per: usize, track: usize, sector: usize) -> usize {
    256 * (per * track + sector)
}

/// VTOC at 17/0 (volume 254, 15 sectors free), catalog pages at 17/15 and 17/14.
/// 0: locked Binary "LINE 7", 600 bytes, lists 18/15 and 18/14, sectors 18/1, 18/2, 18/3.
/// 1: a deleted entry, which is not live.
/// 2: Text "NOTES", list 19/15, sector 19/1. On the second page: Binary "LINE 7", 3 bytes, list 20/15, 20/1.
pub fn disk() -> Vec<u8> {
    disk_of(16)
}

/// The same contents with 13 sectors a track: 12 and 11 in the place of 15 and 14, and 13 sectors free.
pub fn disk_13() -> Vec<u8> {
    disk_of(13)
}

/// With so many sectors a track, which is also what the VTOC says.
pub fn disk_of(per: usize) -> Vec<u8> {
    let at = |track, sector| at_of(per, track, sector);
    let (last, other) = (per - 1, per - 2);
    let mut d = vec![0u8; 256 * 35 * per];
    let v = at(17, 0);
    d[v + 1] = 17;
    d[v + 2] = last as u8;
    d[v + 3] = 3;
    d[v + 6] = 254;
    d[v + 39] = 122;
    d[v + 48] = 18;
    d[v + 49] = 255;
    d[v + 52] = 35;
    d[v + 53] = per as u8;
    d[v + 55] = 1;
    d[v + 56] = 0xFF; // track 0: 15 free, or the 13 that are counted
    d[v + 57] = 0xFE;
    d[v + 58] = 0xFF; // not counted
    let page = at(17, last);
    d[page + 1] = 17;
    d[page + 2] = other as u8;
    let first = |track| (track, last as u8);
    record(&mut d, page, 0, first(18), 0x84, "LINE 7", 5);
    record(&mut d, page, 1, (255, 3), 0x04, "GONE", 9);
    record(&mut d, page, 2, first(19), 0x00, "NOTES", 2);
    record(&mut d, at(17, other), 6, first(20), 0x04, "LINE 7", 0x102);
    // The first file: two lists.
    let list = at(18, last);
    d[list + 1] = 18;
    d[list + 2] = other as u8;
    d[list + 12..list + 16].copy_from_slice(&[18, 1, 18, 2]);
    let list = at(18, other);
    d[list + 12..list + 14].copy_from_slice(&[18, 3]);
    let data = binary();
    let first = at(18, 1);
    d[first..first + 4].copy_from_slice(&[0x00, 0x20, 0x58, 0x02]);
    d[first + 4..first + 604].copy_from_slice(&data);
    // The text.
    let list = at(19, last);
    d[list + 12..list + 14].copy_from_slice(&[19, 1]);
    let text = at(19, 1);
    d[text..text + 2].copy_from_slice(&[0xC8, 0xC9]);
    // The last file.
    let list = at(20, last);
    d[list + 12..list + 14].copy_from_slice(&[20, 1]);
    let data = at(20, 1);
    d[data..data + 7].copy_from_slice(&[0, 8, 3, 0, 11, 22, 33]);
    d
}

/// Marks a sector in the map as free, or as used. The highest sector of a track has the highest bit.
pub fn mark(d: &mut [u8], track: usize, sector: usize, free: bool) {
    let per = d.len() / (256 * 35);
    let from_top = per - 1 - sector;
    let byte = &mut d[at_of(per, 17, 0) + 56 + 4 * track + from_top / 8];
    let bit = 0x80 >> (from_top % 8);
    *byte = if free { *byte | bit } else { *byte & !bit };
}

/// The data of the first file.
pub fn binary() -> Vec<u8> {
    (0..600u32).map(|k| (k * k / 7) as u8).collect()
}

/// Writes entry number `slot` of a page, on a disk of 16 sectors a track.
#[allow(clippy::too_many_arguments)]
pub fn entry(
    d: &mut [u8],
    track: usize,
    sector: usize,
    slot: usize,
    list: (u8, u8),
    kind: u8,
    name: &str,
    count: u16,
) {
    record(d, at(track, sector), slot, list, kind, name, count);
}

/// Writes entry number `slot` of the page that begins at byte `page`.
pub fn record(
    d: &mut [u8],
    page: usize,
    slot: usize,
    list: (u8, u8),
    kind: u8,
    name: &str,
    count: u16,
) {
    let e = page + 11 + 35 * slot;
    d[e] = list.0;
    d[e + 1] = list.1;
    d[e + 2] = kind;
    d[e + 3..e + 33].fill(0xA0);
    for (k, b) in name.bytes().enumerate() {
        d[e + 3 + k] = b | 0x80;
    }
    d[e + 33..e + 35].copy_from_slice(&count.to_le_bytes());
}

/// The pairs of the lists of `large`: two full ones, and the rest.
pub const LARGE: [usize; 3] = [LIST_PAIRS, LIST_PAIRS, 257 - 2 * LIST_PAIRS];

/// A disk whose `files` entries are each 65,535 bytes: 257 pairs that all name sector 1/0.
pub fn large(files: usize) -> Vec<u8> {
    let mut d = vec![0u8; SIZE];
    let v = at(17, 0);
    d[v + 1..v + 3].copy_from_slice(&[17, 15]);
    d[v + 52] = 35;
    d[v + 53] = 16;
    for f in 0..files {
        let (page, slot) = (15 - f / 7, f % 7);
        entry(&mut d, 17, page, slot, (20, 1), 4, "BIG", 260);
        if slot == 0 && f > 0 {
            let before = at(17, page + 1);
            d[before + 1] = 17;
            d[before + 2] = page as u8;
        }
    }
    for (list, pairs) in (1..4).zip(LARGE) {
        let l = at(20, list);
        if list < 3 {
            d[l + 1] = 20;
            d[l + 2] = list as u8 + 1;
        }
        for p in 0..pairs {
            d[l + 12 + 2 * p] = 1;
        }
    }
    d[at(1, 0)..at(1, 0) + 256].fill(0xFF);
    d
}

/// A flat disk of volume 254, and the same as it is read from its nibbles.
pub fn forms(d: &[u8]) -> [Disk<'_>; 2] {
    let flat = Disk::flat(d);
    let nibbles = match flat.nibblize() {
        Ok(stream) => Disk::nibbles(&stream),
        Err(_) => Disk::nibbles_13(&five_three::stream(d, 254)),
    };
    [flat, nibbles.unwrap()]
}

/// Where the field of an address sector stands in a stream of `nibblize`.
pub fn field(track: usize, physical: usize) -> usize {
    416 * (16 * track + physical)
}

/// Writes an address there, with its sum.
pub fn address(s: &mut [u8], field: usize, volume: u8, track: u8, sector: u8) {
    let sum = volume ^ track ^ sector;
    for (k, v) in [volume, track, sector, sum].into_iter().enumerate() {
        s[field + 51 + 2 * k] = (v >> 1) | 0xAA;
        s[field + 52 + 2 * k] = v | 0xAA;
    }
}

/// Numbers that look like chance, the same in each run.
pub struct Dice(pub u64);

impl Dice {
    pub fn roll(&mut self, below: usize) -> usize {
        self.0 ^= self.0 << 13;
        self.0 ^= self.0 >> 7;
        self.0 ^= self.0 << 17;
        (self.0 % below as u64) as usize
    }
}
