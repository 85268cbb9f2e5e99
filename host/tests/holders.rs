// How often the sectors of a disk are held, and which held ones its map calls free: trial disks, every bit of the map, and disks by chance beside a plain
// count. On disks of 16 and of 13 sectors a track.
mod common;
use common::{at_of, disk_of, forms, mark, record, Dice, EDITIONS};
use dos33::raw::dos33_holders;
use dos33::*;
use std::collections::{BTreeSet, HashMap};

type Place = (u8, u8);
// Sectors held by no one, by one, by more; held ones that the map calls free; 1 for clean.
type Five = [u64; 5];

const VTOC: Place = (17, 0);

fn five(h: Holders) -> Five {
    let numbers = [h.unheld, h.held_once, h.shared, h.held_free].map(u64::from);
    let [unheld, held_once, shared, held_free] = numbers;
    [unheld, held_once, shared, held_free, h.clean.into()]
}

fn per_of(d: &[u8]) -> usize {
    d.len() / (256 * TRACKS)
}

fn at(per: usize, (track, sector): Place) -> usize {
    at_of(per, track.into(), sector.into())
}

// The plain count of a disk that is accepted: who is met is counted in a map of places. Written from the words of the request, and nothing of the crate is called.
struct Plain<'a> {
    disk: &'a [u8],
    held: HashMap<Place, u32>,
}

impl Plain<'_> {
    fn pair(&self, place: Place, k: usize) -> Place {
        let i = at(per_of(self.disk), place) + k;
        (self.disk[i], self.disk[i + 1])
    }

    fn hold(&mut self, place: Place) {
        *self.held.entry(place).or_insert(0) += 1;
    }

    fn hold_lists(&mut self, mut list: Place) {
        while list.0 != 0 {
            self.hold(list);
            for k in (12..256).step_by(2) {
                let data = self.pair(list, k);
                if data.0 == 0 {
                    break;
                }
                self.hold(data);
            }
            list = self.pair(list, 1);
        }
    }

    fn hold_all(&mut self) {
        self.hold(VTOC);
        let mut page = self.pair(VTOC, 1);
        loop {
            self.hold(page);
            for entry in (11..256).step_by(35) {
                let list = self.pair(page, entry);
                // FFh is a deleted entry, 0 one that was never in use.
                if list.0 != 255 {
                    self.hold_lists(list);
                }
            }
            page = self.pair(page, 1);
            if page.0 == 0 || page.1 == 0 {
                return;
            }
        }
    }

    fn is_free(&self, (track, sector): Place) -> bool {
        let (high, low) = self.pair(VTOC, 56 + 4 * usize::from(track));
        let bits = u16::from_be_bytes([high, low]);
        let unused = 16 - per_of(self.disk);
        bits >> (usize::from(sector) + unused) & 1 == 1
    }
}

fn plain(disk: &[u8]) -> Plain<'_> {
    let held = HashMap::new();
    let mut plain = Plain { disk, held };
    plain.hold_all();
    plain
}

fn counted(disk: &[u8]) -> Five {
    let plain = plain(disk);
    let mut numbers = [0; 5];
    for track in 0..35 {
        for sector in 0..per_of(disk) as u8 {
            let held = plain.held.get(&(track, sector)).copied().unwrap_or(0);
            numbers[held.min(2) as usize] += 1;
            if held > 0 && plain.is_free((track, sector)) {
                numbers[3] += 1;
            }
        }
    }
    numbers[4] = (numbers[2] == 0 && numbers[3] == 0).into();
    numbers
}

// What holds of every answer, on a disk of so many sectors a track.
fn laws(per: usize, [unheld, once, shared, free, clean]: Five) {
    let sectors = if per == 16 { 560 } else { 455 };
    assert_eq!(unheld + once + shared, sectors);
    assert!(free <= once + shared);
    assert_eq!(clean == 1, shared == 0 && free == 0);
}

// A trial disk, flat and as nibbles.
fn gives(d: &[u8], due: Five) {
    laws(per_of(d), due);
    assert_eq!(counted(d), due);
    for disk in forms(d) {
        assert_eq!(disk.holders().map(five), Ok(due));
        assert_eq!(disk.is_clean(), Ok(due[4] == 1));
    }
}

// A disk that is made by pokes, of so many sectors a track.
struct Trial {
    per: usize,
    d: Vec<u8>,
}

impl Trial {
    fn poke(&mut self, place: Place, k: usize, bytes: &[u8]) {
        let i = at(self.per, place) + k;
        self.d[i..i + bytes.len()].copy_from_slice(bytes);
    }

    // Where the small disk has its two pages, and the list of the file on a track.
    fn page(&self) -> Place {
        (17, self.per as u8 - 1)
    }

    fn second(&self) -> Place {
        (17, self.per as u8 - 2)
    }

    fn list(&self, track: u8) -> Place {
        (track, self.per as u8 - 1)
    }

    fn mark(&mut self, (track, sector): Place, free: bool) {
        mark(&mut self.d, track.into(), sector.into(), free);
    }

    // So many held once, so many shared, and so many of these called free.
    fn gives(&self, once: u64, shared: u64, free: u64) {
        let unheld = 35 * self.per as u64 - once - shared;
        let clean = shared == 0 && free == 0;
        gives(&self.d, [unheld, once, shared, free, clean.into()]);
    }
}

// The small disk of both editions.
fn both(test: impl Fn(Trial)) {
    for per in EDITIONS {
        let d = disk_of(per);
        test(Trial { per, d });
    }
}

// The VTOC, two pages, and for the three files 2, 1 and 1 lists with 3, 1 and 1 data sectors.
#[test]
fn the_small_disk() {
    both(|t| t.gives(12, 0, 0));
}

#[test]
fn a_pair_twice_in_one_list() {
    both(|mut t| {
        // Beside the two that are there ..
        t.poke(t.list(18), 16, &[18, 1]);
        t.gives(11, 1, 0);
        // .. three times ..
        t.poke(t.list(18), 18, &[18, 1]);
        t.gives(11, 1, 0);
        // .. and both twice.
        t.poke(t.list(18), 18, &[18, 2]);
        t.gives(10, 2, 0);
    });
    // In two lists of one file.
    both(|mut t| {
        t.poke((18, t.per as u8 - 2), 12, &[18, 1]);
        t.gives(10, 1, 0);
    });
    // In the lists of two files: crossed threads.
    both(|mut t| {
        t.poke(t.list(19), 12, &[20, 1]);
        t.gives(10, 1, 0);
    });
}

#[test]
fn two_entries_with_one_list() {
    both(|mut t| {
        let list = t.list(18);
        t.poke(t.page(), 11 + 35 * 2, &[list.0, list.1]);
        // Two lists and three data sectors; 19/1 and its list are held by no one.
        t.gives(5, 5, 0);
    });
    // One that begins in the midst of the other.
    both(|mut t| {
        t.poke(t.page(), 11 + 35 * 2, &[18, t.per as u8 - 2]);
        t.gives(8, 2, 0);
    });
    // Two lists that lead to one.
    both(|mut t| {
        t.poke(t.list(19), 1, &[18, t.per as u8 - 2]);
        t.gives(10, 2, 0);
    });
    // Many entries, and each sector of theirs counted once as shared.
    let d = common::large(16);
    gives(&d, [552, 4, 4, 0, 0]);
}

// A data pair that names what serves otherwise: a page, the VTOC, a list of its own or of another file.
#[test]
fn what_serves_otherwise_as_a_data_sector() {
    both(|mut t| {
        for place in [
            t.page(),
            t.second(),
            VTOC,
            t.list(18),
            t.list(19),
            t.list(20),
        ] {
            t.poke(t.list(18), 14, &[place.0, place.1]);
            t.gives(10, 1, 0);
        }
    });
    // A page as a list: it has no pairs, and its link is none.
    both(|mut t| {
        let page = t.second();
        t.poke(t.page(), 11 + 35 * 2, &[page.0, page.1]);
        t.gives(9, 1, 0);
    });
    // The VTOC as a list. Bytes 1 and 2 lead on to the first page, whose first entry read as a pair is off the disk.
    both(|mut t| {
        t.poke(t.page(), 11 + 35 * 2, &[17, 0]);
        refused(&t.d, 3);
        // With a first entry whose list is at 21/0 there is no pair: the VTOC and both pages are pages and lists.
        t.poke(t.page(), 11, &[21, 0]);
        t.gives(3, 3, 0);
    });
}

// The VTOC as its own first page, and so held twice: such a disk is never clean.
#[test]
fn the_vtoc_as_its_own_first_page() {
    both(|mut t| {
        t.poke(VTOC, 1, &[17, 0]);
        t.gives(0, 1, 0);
        // Its map may say what it likes, but where it stands for an entry.
        t.mark(VTOC, true);
        t.gives(0, 1, 1);
        t.mark(VTOC, false);
        // An entry in it: the first file.
        let list = t.list(18);
        record(&mut t.d, at(t.per, VTOC), 0, list, 4, "LINE 7", 5);
        t.gives(5, 1, 0);
    });
    // A link that leads back to it: the VTOC is a page like another.
    both(|mut t| {
        t.poke(t.second(), 1, &[17, 0]);
        t.gives(12, 0, 0);
    });
}

// Each held sector marked as free, and each but those.
#[test]
fn held_and_called_free() {
    both(|mut t| {
        let held: Vec<Place> = plain(&t.d).held.into_keys().collect();
        assert_eq!(held.len(), 12);
        for place in &held {
            t.mark(*place, true);
            t.gives(12, 0, 1);
            t.mark(*place, false);
        }
        for (k, place) in held.iter().enumerate() {
            t.mark(*place, true);
            t.gives(12, 0, 1 + k as u64);
        }
    });
    // A shared one is one sector.
    both(|mut t| {
        t.poke(t.list(19), 12, &[20, 1]);
        t.mark((20, 1), true);
        t.gives(10, 1, 1);
        // And one that no one holds any more is none.
        t.mark((19, 1), true);
        t.gives(10, 1, 1);
    });
}

// What no one holds may be called free or used: a map that calls all used, and one that calls just the held ones so.
#[test]
fn unheld_sectors_in_the_map() {
    both(|mut t| {
        let held = plain(&t.d).held;
        let all = |t: &Trial| {
            (0..35)
                .flat_map(|k| (0..t.per as u8).map(move |s| (k, s)))
                .collect::<Vec<Place>>()
        };
        for place in all(&t) {
            t.mark(place, false);
        }
        assert_eq!(Disk::flat(&t.d).survey().unwrap().free, 0);
        t.gives(12, 0, 0);
        for place in all(&t) {
            t.mark(place, !held.contains_key(&place));
        }
        let free = Disk::flat(&t.d).survey().unwrap().free;
        assert_eq!(usize::from(free), 35 * t.per - 12);
        t.gives(12, 0, 0);
        for place in all(&t) {
            t.mark(place, true);
        }
        t.gives(12, 0, 12);
    });
}

// Map bytes 2 and 3 of a track, with 13 sectors a track the three lowest bits of byte 1, and what stands from track 35 on.
#[test]
fn what_the_map_does_not_say() {
    both(|mut t| {
        for fill in [0xFF, 0x00, 0x5A] {
            for track in 0..35 {
                t.poke(VTOC, 58 + 4 * track, &[fill; 2]);
                if t.per == 13 {
                    let i = at(t.per, VTOC) + 57 + 4 * track;
                    t.d[i] = t.d[i] & !7 | fill & 7;
                }
            }
            t.poke(VTOC, 56 + 4 * 35, &[fill; 60]);
            t.gives(12, 0, 0);
        }
    });
}

// Every bit of the map, one by one, on a clean disk and on a crossed one. Those that change the answer are those of the held sectors.
#[test]
fn every_bit_of_the_map() {
    both(|mut t| {
        for crossed in [false, true] {
            if crossed {
                t.poke(t.list(19), 12, &[20, 1]);
                t.mark((18, 2), true);
            }
            let before = counted(&t.d);
            let mut moved = 0;
            for i in 56..256 {
                for bit in 0..8 {
                    let byte = at(t.per, VTOC) + i;
                    t.d[byte] ^= 1 << bit;
                    let due = counted(&t.d);
                    assert_eq!(Disk::flat(&t.d).holders().map(five), Ok(due));
                    moved += u64::from(due != before);
                    t.d[byte] ^= 1 << bit;
                }
            }
            assert_eq!(moved, before[1] + before[2]);
        }
    });
}

// An entry with list track 0 or FFh holds nothing, whatever else is in it.
#[test]
fn dead_entries() {
    both(|mut t| {
        // The deleted one of the small disk, and one that was never in use.
        for (slot, track) in [(1, 255), (3, 0), (4, 255), (5, 0)] {
            t.poke(t.page(), 11 + 35 * slot, &[0x80; 35]);
            t.poke(t.page(), 11 + 35 * slot, &[track, 1]);
        }
        t.gives(12, 0, 0);
        // A file deleted: DOS puts FFh for its track, and the track at the name's end.
        t.poke(t.page(), 11 + 35 * 2, &[255]);
        t.poke(t.page(), 11 + 35 * 2 + 32, &[19]);
        t.gives(10, 0, 0);
        t.mark((19, 1), true);
        t.gives(10, 0, 0);
    });
}

// Pairs behind a zero track are none, and the last of a full list is one.
#[test]
fn the_end_of_a_list() {
    both(|mut t| {
        let list = t.list(19);
        t.poke(list, 12, &[19, 1, 0, 5, 20, 1, 20, 2]);
        t.gives(12, 0, 0);
        // 122 sectors from 22/0 on, each once.
        let per = t.per;
        let pairs: Vec<u8> = (22 * per..22 * per + 122)
            .flat_map(|n| [(n / per) as u8, (n % per) as u8])
            .collect();
        t.poke(list, 12, &pairs);
        t.gives(11 + 122, 0, 0);
        t.poke(list, 254, &[20, 1]);
        t.gives(10 + 121, 1, 0);
        t.poke(list, 254, &[0, 1]);
        t.gives(11 + 121, 0, 0);
    });
}

// A list in a sector 0, and a first page on track 0, which no pair and no list can have.
#[test]
fn sector_0_and_track_0() {
    both(|mut t| {
        let (per, page, list) = (t.per, t.page(), t.list(20));
        t.d.copy_within(at(per, list)..at(per, list) + 256, at(per, (21, 0)));
        t.poke(t.second(), 11 + 35 * 6, &[21, 0]);
        t.gives(12, 0, 0);
        t.mark((21, 0), true);
        t.gives(12, 0, 1);
        t.mark(list, true);
        t.gives(12, 0, 1);
        t.mark((21, 0), false);
        t.d.copy_within(at(per, page)..at(per, page) + 256, at(per, (0, 5)));
        t.poke(VTOC, 1, &[0, 5]);
        // The small disk's map has track 0 free.
        t.gives(12, 0, 1);
        t.mark((0, 5), false);
        t.gives(12, 0, 0);
    });
}

// All sectors but track 0's: a file with as many lists as it takes.
#[test]
fn every_sector_held() {
    both(|mut t| {
        let (per, page) = (t.per, t.page());
        t.poke(page, 0, &[0; 256]);
        record(&mut t.d, at(per, page), 0, (1, 1), 4, "ALL", 0);
        let mut places: Vec<Place> = (1..35)
            .flat_map(|k| (0..per as u8).map(move |s| (k, s)))
            .filter(|p| *p != VTOC && *p != page)
            .collect();
        // The first list, and then from behind: none of those is in a sector 0.
        let mut list = places.remove(1);
        assert_eq!(list, (1, 1));
        while !places.is_empty() {
            t.poke(list, 0, &[0; 256]);
            let next = places.iter().rposition(|p| p.1 != 0);
            let next = next
                .filter(|_| places.len() > 122)
                .map(|k| places.remove(k));
            for k in 0..places.len().min(122) {
                let data = places.remove(0);
                t.poke(list, 12 + 2 * k, &[data.0, data.1]);
            }
            if let Some(next) = next {
                t.poke(list, 1, &[next.0, next.1]);
                list = next;
            }
        }
        t.gives(34 * per as u64, 0, 0);
        for track in 0..35 {
            t.poke(VTOC, 56 + 4 * track, &[0xFF; 4]);
        }
        t.gives(34 * per as u64, 0, 34 * per as u64);
    });
}

// Refusals.

// The number, by the call and by the export, which changes no field; with too few fields it is the same number.
fn refused(d: &[u8], due: u8) {
    let disk = Disk::flat(d);
    let refusal = Refusal::from_number(due);
    assert_eq!(disk.survey().err(), refusal);
    assert_eq!(disk.holders().err(), refusal);
    assert_eq!(disk.is_clean().err(), refusal);
    for room in [0, 4, 5, 9] {
        let mut fields = vec![77; room];
        let p = fields.as_mut_ptr();
        // SAFETY: slices of this function.
        let number = unsafe { dos33_holders(d.as_ptr(), d.len(), p, room) };
        assert_eq!(number, due);
        assert!(fields.iter().all(|f| *f == 77));
    }
}

// Bytes from one on of a sector.
type Poke<'a> = (Place, usize, &'a [u8]);

#[test]
fn refusals_as_the_survey_has_them() {
    both(|t| {
        let d = &t.d;
        let longer = [&d[..], &[0]].concat();
        for other in [&d[1..], &longer, &d[..256], &[]] {
            refused(other, 1);
        }
        let (page, second) = (t.page(), t.second());
        let (last, other) = (t.list(18), (18, t.per as u8 - 2));
        let back = [last.0, last.1];
        let pokes: &[(&[Poke], u8)] = &[
            (&[(VTOC, 52, &[36])], 2),
            (&[(VTOC, 53, &[15])], 2),
            // A page, a list's link, an entry's list, a pair: off the disk.
            (&[(VTOC, 1, &[35, 1])], 3),
            (&[(VTOC, 1, &[17, t.per as u8])], 3),
            (&[(page, 1, &[35])], 3),
            (&[(last, 1, &[35])], 3),
            (&[(page, 11, &[35])], 3),
            (&[(other, 12, &[35])], 3),
            (&[(other, 12, &[34, t.per as u8])], 3),
            (&[(page, 11, &[254])], 3),
            (&[(second, 1, &[page.0, page.1])], 4),
            (&[(other, 1, &back)], 4),
            (&[(other, 1, &[18, 0])], 5),
            (&[(page, 14, &[0x80])], 6),
            (&[(second, 11 + 35 * 6 + 32, &[0x80])], 6),
            // 5 before 3, and a ring of lists before a pair that is off the disk.
            (&[(other, 1, &[200, 0])], 5),
            (&[(last, 12, &[35]), (other, 1, &back)], 4),
            // The pages before the entries, and a file before the next.
            (
                &[(other, 1, &[18, 0]), (second, 11 + 35 * 6 + 3, &[0x80])],
                6,
            ),
            (&[(other, 1, &[18, 0]), ((19, last.1), 12, &[35])], 5),
            (&[(last, 12, &[35]), ((19, last.1), 1, &[19, 0])], 3),
        ];
        for (pokes, due) in pokes {
            let mut t = Trial {
                per: t.per,
                d: d.clone(),
            };
            pokes
                .iter()
                .for_each(|(place, k, bytes)| t.poke(*place, *k, bytes));
            refused(&t.d, *due);
        }
    });
}

#[test]
fn too_few_fields() {
    both(|t| {
        for room in 0..8 {
            let mut fields = vec![77; room];
            let p = fields.as_mut_ptr();
            // SAFETY: slices of this function.
            let number = unsafe { dos33_holders(t.d.as_ptr(), t.d.len(), p, room) };
            if room < 5 {
                assert_eq!((number, fields), (12, vec![77; room]));
            } else {
                assert_eq!(number, 0);
                assert_eq!(fields[..5], counted(&t.d));
                assert_eq!(fields[5..], vec![77; room - 5]);
            }
        }
    });
}

// Disks by chance.

// Places, each dealt once; every `cross`th is any place of the disk instead (with 0 none is).
struct Deck {
    per: usize,
    cross: usize,
    // Those that a link can name, and all others but the VTOC.
    links: Vec<Place>,
    data: Vec<Place>,
}

impl Deck {
    fn new(dice: &mut Dice, per: usize) -> Deck {
        let cross = [0, 0, 5, 20, 100][dice.roll(5)];
        let mut data: Vec<Place> = (1..35)
            .flat_map(|t| (0..per as u8).map(move |s| (t, s)))
            .filter(|p| *p != VTOC)
            .collect();
        for k in (1..data.len()).rev() {
            data.swap(k, dice.roll(k + 1));
        }
        let mut links = Vec::new();
        while links.len() < 150 {
            match data.pop() {
                Some(p) if p.1 == 0 => data.insert(0, p),
                p => links.extend(p),
            }
        }
        Deck {
            per,
            cross,
            links,
            data,
        }
    }

    fn crosses(&self, dice: &mut Dice) -> bool {
        self.cross > 0 && dice.roll(self.cross) == 0
    }

    fn link(&mut self, dice: &mut Dice) -> Place {
        if self.crosses(dice) && dice.roll(3) == 0 {
            return (1 + dice.roll(34) as u8, 1 + dice.roll(self.per - 1) as u8);
        }
        self.links.pop().unwrap()
    }

    fn pair(&mut self, dice: &mut Dice) -> Option<Place> {
        if self.crosses(dice) {
            // What serves otherwise is on track 17 more often.
            let track = if dice.roll(4) == 0 { 16 } else { dice.roll(34) };
            return Some((1 + track as u8, dice.roll(self.per) as u8));
        }
        self.data.pop()
    }
}

// A file's lists and pairs, and where the first stands.
fn lay_file(t: &mut Trial, deck: &mut Deck, dice: &mut Dice) -> Place {
    let first = deck.link(dice);
    let mut list = first;
    for more in (0..[1, 1, 1, 2, 3][dice.roll(5)]).rev() {
        let pairs = if dice.roll(20) == 0 {
            122
        } else {
            dice.roll(9)
        };
        for k in 0..pairs {
            if let Some(data) = deck.pair(dice) {
                t.poke(list, 12 + 2 * k, &[data.0, data.1]);
            }
        }
        if more > 0 {
            let next = deck.link(dice);
            t.poke(list, 1, &[next.0, next.1]);
            list = next;
        }
    }
    first
}

fn lay_page(t: &mut Trial, page: Place, deck: &mut Deck, dice: &mut Dice) {
    let mut before = None;
    for slot in 0..7 {
        match dice.roll(4) {
            // Dead, and any bytes in it.
            0 => {
                let entry: Vec<u8> = (0..35).map(|_| dice.roll(256) as u8).collect();
                t.poke(page, 11 + 35 * slot, &entry);
                t.poke(page, 11 + 35 * slot, &[[0, 255][dice.roll(2)]]);
            }
            1 => {}
            _ => {
                // A list of another file, now and then.
                let again = before.filter(|_| deck.crosses(dice));
                let list = again.unwrap_or_else(|| lay_file(t, deck, dice));
                let kind = [0, 1, 2, 4, 0x84, 0x7F][dice.roll(6)];
                record(&mut t.d, at(t.per, page), slot, list, kind, "FILE", 2);
                before = Some(list);
            }
        }
    }
}

// The map: all used; what is held used and the rest free; the same with some bits turned; any. And any bytes where it says nothing.
fn lay_map(t: &mut Trial, dice: &mut Dice) {
    let kind = dice.roll(4);
    for i in 56..256 {
        let said = i < 56 + 4 * 35 && i % 4 < 2;
        if !said || kind == 3 {
            t.poke(VTOC, i, &[dice.roll(256) as u8]);
        }
    }
    if kind == 1 || kind == 2 {
        let accepted = Disk::flat(&t.d).survey().is_ok();
        let held = if accepted {
            plain(&t.d).held
        } else {
            HashMap::new()
        };
        for track in 0..35 {
            for sector in 0..t.per as u8 {
                let place = (track, sector);
                t.mark(place, !held.contains_key(&place));
            }
        }
    }
    if kind == 2 {
        for _ in 0..1 + dice.roll(60) {
            let place = (dice.roll(35) as u8, dice.roll(t.per) as u8);
            t.mark(place, dice.roll(2) == 0);
        }
    }
}

fn by_chance(dice: &mut Dice, per: usize) -> Vec<u8> {
    let mut t = Trial {
        per,
        d: vec![0; 256 * 35 * per],
    };
    let mut deck = Deck::new(dice, per);
    t.poke(VTOC, 6, &[254]);
    t.poke(VTOC, 52, &[[35, 40][dice.roll(2)], per as u8]);
    let mut page = deck.link(dice);
    // Now and then it is the VTOC itself, or on track 0.
    match dice.roll(30) {
        0 => page = VTOC,
        1 => page = (0, dice.roll(per) as u8),
        _ => {}
    }
    t.poke(VTOC, 1, &[page.0, page.1]);
    let pages = if page == VTOC { 1 } else { 1 + dice.roll(4) };
    for more in (0..pages).rev() {
        lay_page(&mut t, page, &mut deck, dice);
        if more > 0 {
            let next = deck.link(dice);
            t.poke(page, 1, &[next.0, next.1]);
            page = next;
        }
    }
    if page == VTOC {
        // Entries in it would be its own fields.
        t.poke(VTOC, 52, &[35, per as u8]);
    }
    lay_map(&mut t, dice);
    // Damage, to a link, a pair or a letter of something that is read.
    if dice.roll(10) == 0 {
        let place = [VTOC, page, t.page(), deck.link(dice)][dice.roll(4)];
        let i = [1, 2, 11, 12, 13, 14, 46, 52, 53, 81][dice.roll(10)];
        t.poke(place, i, &[dice.roll(256) as u8]);
    }
    t.d
}

#[test]
fn disks_by_chance() {
    let mut dice = Dice(0xC205_5ED0);
    let mut seen = [0; 4];
    let mut numbers = BTreeSet::new();
    let rounds = 4000;
    for round in 0..rounds {
        let per = EDITIONS[round % 2];
        let d = by_chance(&mut dice, per);
        let disk = Disk::flat(&d);
        let answer = disk.holders();
        assert_eq!(answer.err(), disk.survey().err(), "round {round}");
        if round % 100 < 2 {
            for other in forms(&d) {
                assert_eq!(other.holders(), answer);
            }
        }
        let Ok(answer) = answer.map(five) else {
            numbers.insert(answer.unwrap_err().number());
            continue;
        };
        assert_eq!(answer, counted(&d), "round {round}");
        laws(per, answer);
        // Clean; shared alone; called free alone; both.
        let [_, _, shared, free, _] = answer;
        seen[usize::from(shared > 0) + 2 * usize::from(free > 0)] += 1;
    }
    // Most are accepted, many of each kind, and those that are refused are so for all reasons but the size.
    assert!(numbers.into_iter().eq(2..=6));
    assert!(seen.iter().sum::<usize>() > rounds * 3 / 4, "{seen:?}");
    assert!(seen.iter().all(|n| *n > rounds / 20), "{seen:?}");
}
