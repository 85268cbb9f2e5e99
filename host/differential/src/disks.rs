// Flat disks, good ones and damaged ones.
use dos33::LIST_PAIRS;

use crate::random::Random;
use crate::walk::{self, RUST_PAIRS, RUST_TRACK};

pub type Place = (u8, u8);

pub const SIZE: usize = 143_360;

// A flat disk of 13 sectors a track. image-rider has none: such a length is never compared.
pub const SIZE_13: usize = 116_480;

pub fn start(place: Place) -> usize {
    4096 * place.0 as usize + 256 * place.1 as usize
}

struct Builder<'r> {
    random: &'r mut Random,
    disk: Vec<u8>,
    free: Vec<Place>,
    pages: Vec<Place>,
    // Where each entry's record stands.
    entries: Vec<usize>,
    chains: Vec<Vec<Place>>,
    names: Vec<[u8; 30]>,
    // The pairs that a list has at most, but for damage: one disk in five has lists that image-rider does not read
    // to their end.
    most_pairs: usize,
    // The size at the end.
    size: usize,
}

// A disk; most are damaged.
pub fn disk(random: &mut Random) -> Vec<u8> {
    if random.one_in(25) {
        return wild(random);
    }
    let fill = random.pick(&[0, 0, 0, 0xFF, 0x11]);
    let disk = if random.one_in(3) {
        random.bytes(SIZE)
    } else {
        vec![fill; SIZE]
    };
    let mut free: Vec<Place> = Vec::new();
    for t in 0..35 {
        for s in 0..16 {
            if (t, s) != (17, 0) {
                free.push((t, s));
            }
        }
    }
    for k in (1..free.len()).rev() {
        free.swap(k, random.below(k + 1));
    }
    let most_pairs = if random.one_in(5) {
        LIST_PAIRS
    } else {
        RUST_PAIRS
    };
    let mut b = Builder {
        random,
        disk,
        free,
        pages: Vec::new(),
        entries: Vec::new(),
        chains: Vec::new(),
        names: Vec::new(),
        most_pairs,
        size: SIZE,
    };
    b.table();
    b.catalog();
    b.fill_in();
    let damages = b.random.pick(&[0, 0, 0, 0, 1, 1, 1, 2]);
    for _ in 0..damages {
        b.damage();
    }
    let size = b.size;
    b.disk.resize(size, 0);
    b.disk
}

// Bytes of any kind, with a table that passes.
fn wild(random: &mut Random) -> Vec<u8> {
    let top = random.pick(&[2, 16, 35, 40, 128, 256]);
    let mut disk: Vec<u8> = (0..SIZE).map(|_| random.below(top) as u8).collect();
    let t = start((17, 0));
    if !random.one_in(4) {
        disk[t + 1] = RUST_TRACK;
    }
    disk[t + 2] = random.below(16) as u8;
    disk[t + 52] = 35;
    disk[t + 53] = 16;
    disk
}

impl Builder<'_> {
    fn put(&mut self, place: Place, at: usize, bytes: &[u8]) {
        let from = start(place) + at;
        self.disk[from..from + bytes.len()].copy_from_slice(bytes);
    }

    fn table(&mut self) {
        let mut v = self.random.bytes(256);
        v[3] = 3;
        v[6] = self.random.pick(&[254, 1, 0, 255]);
        v[39] = self.random.pick(&[122, 0, 1]);
        v[52] = self.random.pick(&[35, 35, 40]);
        v[53] = self.random.pick(&[16, 16, 13]);
        self.put((17, 0), 0, &v);
    }

    // A free sector that a link can name: neither number zero.
    fn linkable(&mut self) -> Option<Place> {
        let k = self.free.iter().rposition(|p| p.0 != 0 && p.1 != 0)?;
        Some(self.free.remove(k))
    }

    fn any_place(&mut self) -> Place {
        (self.random.within(1, 34) as u8, self.random.below(16) as u8)
    }

    // Of one disk in six it may stand anywhere, track 0 and a sector 0 among them.
    fn first_page(&mut self) -> Place {
        if self.random.one_in(6) {
            self.random.pick(&self.free.clone())
        } else {
            (RUST_TRACK, self.random.within(1, 15) as u8)
        }
    }

    fn catalog(&mut self) {
        let n = match self.random.below(48) {
            0..=27 => self.random.within(1, 4),
            28..=43 => self.random.within(5, 16),
            44..=46 => self.random.within(17, 120),
            _ => self.random.within(120, 500),
        };
        let first = self.first_page();
        self.free.retain(|p| *p != first);
        self.put((17, 0), 1, &[first.0, first.1]);
        self.pages.push(first);
        while self.pages.len() < n {
            match self.linkable() {
                Some(page) => self.pages.push(page),
                None => break,
            }
        }
        for k in 0..self.pages.len() {
            let page = self.pages[k];
            let link = if k + 1 < self.pages.len() {
                self.pages[k + 1]
            } else {
                let other = self.random.byte();
                self.random.pick(&[(0, 0), (0, other), (other, 0)])
            };
            self.put(page, 1, &[link.0, link.1]);
            let most = if self.pages.len() > 20 { 2 } else { 7 };
            for slot in 0..7 {
                let mut record = self.random.bytes(35);
                record[0] = self.random.pick(&[0, 0xFF]);
                let live = slot < most && !self.random.one_in(3);
                self.put(page, 11 + 35 * slot, &record);
                if live {
                    self.entries.push(start(page) + 11 + 35 * slot);
                }
            }
        }
    }

    fn name(&mut self) -> [u8; 30] {
        if !self.names.is_empty() && self.random.one_in(5) {
            let k = self.random.below(self.names.len());
            return self.names[k];
        }
        let mut name = [0xA0; 30];
        let n = self.random.pick(&[0, 1, 2, 5, 8, 15, 29, 30]);
        let how = self.random.below(6);
        for b in name.iter_mut().take(n) {
            *b = match how {
                0 | 1 => self.random.within(0xC1, 0xDA) as u8,
                2 => self.random.byte(),
                3 => self.random.byte() & 0x7F,
                4 => self
                    .random
                    .pick(&[0x20, 0xA0, 0x41, 0xC1, 0x00, 0xFF, 0x81, 0x7F]),
                _ => self.random.byte() | 0x80,
            };
            if *b == 0x80 {
                *b = 0x81;
            }
        }
        // The same shown name in other bytes.
        if self.random.one_in(6) {
            for b in name.iter_mut() {
                if self.random.one_in(2) && *b > 0x80 {
                    *b -= 0x80;
                }
            }
        }
        self.names.push(name);
        name
    }

    // A chain of lists with so many pairs each.
    fn chain(&mut self, counts: &[usize]) -> Option<Vec<Place>> {
        let mut places = Vec::new();
        for k in 0..counts.len() {
            // The first list may stand on a sector 0.
            let place = if k == 0 && self.random.one_in(4) {
                let at = self.free.iter().rposition(|p| p.0 != 0)?;
                Some(self.free.remove(at))
            } else {
                self.linkable()
            };
            match place {
                Some(place) => places.push(place),
                None => break,
            }
        }
        if places.is_empty() {
            return None;
        }
        for k in 0..places.len() {
            let mut list = if self.random.one_in(2) {
                vec![0; 256]
            } else {
                self.random.bytes(256)
            };
            let other = if self.random.one_in(2) {
                0
            } else {
                self.random.byte()
            };
            let link = if k + 1 < places.len() {
                places[k + 1]
            } else {
                (0, other)
            };
            list[1] = link.0;
            list[2] = link.1;
            let count = counts[k];
            let fresh = self.random.one_in(2);
            for j in 0..LIST_PAIRS.min(count + 1) {
                let pair = if j < count {
                    let taken = if fresh && self.free.len() > 150 {
                        self.linkable()
                    } else {
                        None
                    };
                    match taken {
                        Some(place) => place,
                        None => self.any_place(),
                    }
                } else {
                    let other = self.random.byte();
                    (0, other)
                };
                list[12 + 2 * j] = pair.0;
                list[13 + 2 * j] = pair.1;
            }
            self.put(places[k], 0, &list);
        }
        Some(places)
    }

    // How many pairs a list has.
    fn count(&mut self) -> usize {
        if self.random.below(11) < 3 {
            let count = self.random.pick(&[RUST_PAIRS - 1, RUST_PAIRS, LIST_PAIRS]);
            count.min(self.most_pairs)
        } else {
            self.random.pick(&[0, 1, 1, 2, 3, 5, 9, 20])
        }
    }

    // Lists and data for every entry.
    fn fill_in(&mut self) {
        let big = self.random.below(60);
        for k in 0..self.entries.len() {
            let at = self.entries[k];
            let mut kind = self
                .random
                .pick(&[4, 4, 4, 4, 0, 1, 2, 8, 10, 20, 40, 3, 41, 127, 16]);
            if self.random.one_in(10) {
                kind = self.random.byte() & 0x7F;
            }
            let counts: Vec<usize> = if k == 0 && big < 6 {
                // Around 65,536 bytes.
                kind = 4;
                let sectors = self.random.within(255, 259);
                let most = self.most_pairs;
                vec![most, most, sectors - 2 * most]
            } else if k == 0 && big == 6 {
                let n = self.random.within(30, 400);
                (0..n).map(|_| self.random.pick(&[0, 1, 2])).collect()
            } else {
                let n = self.random.pick(&[1, 1, 1, 1, 1, 2, 2, 3, 6]);
                (0..n).map(|_| self.count()).collect()
            };
            let shared = !self.chains.is_empty() && self.random.one_in(6);
            let chain = if shared {
                let j = self.random.below(self.chains.len());
                let from = self.random.below(self.chains[j].len());
                Some(self.chains[j][from..].to_vec())
            } else {
                self.chain(&counts)
            };
            let Some(chain) = chain else { continue };
            let lock = self.random.pick(&[0, 0x80]);
            let name = self.name();
            self.disk[at] = chain[0].0;
            self.disk[at + 1] = chain[0].1;
            self.disk[at + 2] = kind | lock;
            self.disk[at + 3..at + 33].copy_from_slice(&name);
            if !shared {
                self.length(&chain);
            }
            self.chains.push(chain);
        }
    }

    // A length around a limit into the file's first sector.
    fn length(&mut self, chain: &[Place]) {
        let mut first = None;
        let mut size = 0;
        for place in chain {
            let pairs = walk::pairs(&self.disk, *place);
            first = first.or(pairs.first().copied());
            size += 256 * pairs.len();
        }
        let Some(first) = first else { return };
        // Not over a list or a page.
        let list = chain.contains(&first) || self.chains.iter().any(|c| c.contains(&first));
        if list || self.pages.contains(&first) || first == (17, 0) {
            return;
        }
        let near = (size as i64 - 4 + self.random.below(4) as i64 - 2).max(0) as usize;
        let length = match self.random.below(8) {
            0 => self.random.below(size + 4),
            1 => self.random.within(65_526, 65_535),
            2 => 0,
            3 => self.random.below(65_536),
            4 => self.random.below(5),
            _ => near,
        }
        .min(65_535) as u16;
        self.put(first, 2, &length.to_le_bytes());
    }

    fn off(&mut self) -> Place {
        let t = self.random.within(1, 34) as u8;
        let high = self.random.within(35, 255) as u8;
        let s = self.random.within(1, 15) as u8;
        let over = self.random.within(16, 255) as u8;
        self.random.pick(&[
            (35, s),
            (high, s),
            (t, 16),
            (t, over),
            (high, over),
            (34, 16),
            (35, 1),
        ])
    }

    fn a_list(&mut self) -> Option<(Place, Place)> {
        if self.chains.is_empty() {
            return None;
        }
        let k = self.random.below(self.chains.len());
        let chain = self.chains[k].clone();
        let from = self.random.pick(&chain);
        let to = self.random.pick(&chain);
        Some((from, to))
    }

    fn an_entry(&mut self) -> Option<usize> {
        if self.entries.is_empty() {
            return None;
        }
        let k = self.random.below(self.entries.len());
        Some(self.entries[k])
    }

    fn damage(&mut self) {
        let table = start((17, 0));
        match self.random.below(20) {
            0 => {
                // A ring of pages.
                let k = self.random.below(self.pages.len());
                let to = self.random.pick(&self.pages.clone());
                let from = self.pages[k];
                self.put(from, 1, &[to.0, to.1]);
            }
            1 => {
                // A ring of lists, where it leads back.
                if let Some((from, to)) = self.a_list() {
                    self.put(from, 1, &[to.0, to.1]);
                }
            }
            2 | 3 => {
                // A cut link, on the disk or off it.
                if let Some((from, to)) = self.a_list() {
                    let track = self.random.pick(&[to.0, 35, 200, 255, 34, 1]);
                    self.put(from, 1, &[track, 0]);
                }
            }
            4 => {
                let k = self.random.below(self.pages.len());
                let from = self.pages[k];
                let off = self.off();
                self.put(from, 1, &[off.0, off.1]);
            }
            5 => {
                if let Some(at) = self.an_entry() {
                    let off = self.off();
                    self.disk[at] = off.0;
                    self.disk[at + 1] = off.1;
                }
            }
            6 => {
                if let Some((from, _)) = self.a_list() {
                    let off = self.off();
                    self.put(from, 1, &[off.0, off.1]);
                }
            }
            7 | 8 => {
                // A pair off the disk, or sector 0 of track 35 and more.
                if let Some((from, _)) = self.a_list() {
                    let mut off = self.off();
                    if off.0 > 34 && self.random.one_in(2) {
                        off.1 = 0;
                    }
                    let last = LIST_PAIRS - 1;
                    let at = self.random.pick(&[0, 0, 1, 2, last - 2, last - 1, last]);
                    self.put(from, 12 + 2 * at, &[off.0, off.1]);
                }
            }
            9 | 10 => {
                if let Some(at) = self.an_entry() {
                    let k = self.random.pick(&[0, 1, 15, 28, 29]);
                    self.disk[at + 3 + k] = 0x80;
                    // In a dead entry it is not looked at.
                    if self.random.one_in(4) {
                        self.disk[at] = self.random.pick(&[0, 0xFF]);
                    }
                }
            }
            11 => {
                let at = self.random.pick(&[52, 53]);
                self.disk[table + at] = self
                    .random
                    .pick(&[0, 12, 13, 14, 15, 16, 17, 34, 35, 36, 39, 40, 41, 255]);
            }
            12 => {
                if self.random.one_in(4) {
                    self.disk[table + 1] = self.random.pick(&[0, 1, 16, 34, 35, 40, 255]);
                } else {
                    self.disk[table + 2] = self.random.pick(&[0, 0, 1, 14, 15, 16, 17, 255]);
                }
            }
            13 | 14 => {
                // Bytes of pages and lists.
                let mut places = self.pages.clone();
                places.extend(self.chains.iter().flatten());
                for _ in 0..self.random.within(1, 20) {
                    let place = self.random.pick(&places);
                    let reach = self.random.pick(&[40, 256]);
                    let at = self.random.below(reach);
                    let byte = if self.random.one_in(2) {
                        self.random.byte()
                    } else {
                        self.random.below(40) as u8
                    };
                    self.put(place, at, &[byte]);
                }
            }
            15 => {
                for _ in 0..self.random.within(1, 300) {
                    let at = self.random.below(SIZE);
                    self.disk[at] = self.random.byte();
                }
            }
            16 => {
                let n = self.random.pick(&[
                    0,
                    1,
                    255,
                    256,
                    69_632,
                    69_888,
                    SIZE - 4096,
                    SIZE - 256,
                    SIZE - 1,
                ]);
                let n = if self.random.one_in(4) {
                    self.random.below(SIZE)
                } else {
                    n
                };
                let more = self.random.pick(&[1, 256, 4096]);
                let n = if self.random.one_in(4) {
                    SIZE + more
                } else {
                    n
                };
                // To ours this length is a disk of 13 sectors a track, not a wrong size.
                self.size = if n == SIZE_13 { n - 1 } else { n };
            }
            17 => {
                // A list that goes on in another chain, in a page or in data.
                if let Some((from, _)) = self.a_list() {
                    let to = match self.random.below(3) {
                        0 => self.random.pick(&self.pages.clone()),
                        1 => self.a_list().unwrap().0,
                        _ => self.any_place(),
                    };
                    self.put(from, 1, &[to.0, to.1]);
                }
            }
            18 => {
                // A catalog that goes on in a list or in data.
                let from = *self.pages.last().unwrap_or(&(17, 15));
                let to = match self.a_list() {
                    Some((list, _)) if self.random.one_in(2) => list,
                    _ => self.any_place(),
                };
                self.put(from, 1, &[to.0, to.1]);
            }
            _ => {
                // A pair that names a list, a page or the table.
                if let Some((from, to)) = self.a_list() {
                    let page = self.random.pick(&self.pages.clone());
                    let pair = self.random.pick(&[to, page, (17, 0), from]);
                    self.put(from, 12, &[pair.0, pair.1]);
                }
            }
        }
    }
}
