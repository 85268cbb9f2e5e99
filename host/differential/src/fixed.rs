// Small inputs with the number that the documents give them, compared like all others or left out like all others.
use dos33::LIST_PAIRS;

use crate::config::Config;
use crate::disks::{start, Place, SIZE};
use crate::load;
use crate::ours::Ours;
use crate::random::Random;
use crate::report::Report;
use crate::streams;
use crate::walk::{LeftOut, RUST_PAIRS};
use crate::worker::Worker;

// The pairs of a list that image-rider does not read to its end.
const FULL: [Place; LIST_PAIRS] = [(2, 2); LIST_PAIRS];

struct Disk(Vec<u8>);

impl Disk {
    // An empty catalog of one page at 17/15.
    fn new() -> Disk {
        let mut disk = Disk(vec![0; SIZE]);
        disk.put((17, 0), 1, &[17, 15, 3]);
        disk.put((17, 0), 6, &[254]);
        disk.put((17, 0), 52, &[35, 16, 0, 1]);
        disk
    }

    fn put(&mut self, place: Place, at: usize, bytes: &[u8]) {
        let from = start(place) + at;
        self.0[from..from + bytes.len()].copy_from_slice(bytes);
    }

    fn link(&mut self, from: Place, to: Place) {
        self.put(from, 1, &[to.0, to.1]);
    }

    fn entry(&mut self, page: Place, slot: usize, list: Place, kind: u8, name: &[u8]) {
        let mut record = vec![list.0, list.1, kind];
        record.extend(name);
        record.resize(33, 0xA0);
        record.extend([2, 0]);
        self.put(page, 11 + 35 * slot, &record);
    }

    // Pair number k of a list, from 0.
    fn pair(&mut self, list: Place, k: usize, pair: Place) {
        self.put(list, 12 + 2 * k, &[pair.0, pair.1]);
    }

    fn pairs(&mut self, list: Place, pairs: &[Place]) {
        for (k, p) in pairs.iter().enumerate() {
            self.pair(list, k, *p);
        }
    }

    // A file "A" with its list at 1/1 and one sector at 2/2.
    fn file(kind: u8) -> Disk {
        let mut disk = Disk::new();
        disk.entry((17, 15), 0, (1, 1), kind, &[0xC1]);
        disk.pairs((1, 1), &[(2, 2)]);
        disk
    }

    // The same with the page at another place, and none at 17/15.
    fn moved(first: Place) -> Disk {
        let mut disk = Disk::file(4);
        let page = start((17, 15));
        disk.0.copy_within(page..page + 256, start(first));
        disk.put((17, 15), 0, &[0; 256]);
        disk.link((17, 0), first);
        disk
    }

    // The file with a full list.
    fn full() -> Disk {
        let mut disk = Disk::file(4);
        disk.pairs((1, 1), &FULL);
        disk
    }

    // The same with so many pairs and that length, in two lists of `most` pairs and a third.
    fn long(most: usize, pairs: usize, length: u16) -> Disk {
        let mut disk = Disk::file(4);
        disk.put((2, 2), 2, &length.to_le_bytes());
        disk.link((1, 1), (1, 2));
        disk.link((1, 2), (1, 3));
        disk.pairs((1, 1), &vec![(2, 2); most]);
        disk.pairs((1, 2), &vec![(2, 3); most]);
        disk.pairs((1, 3), &vec![(2, 4); pairs - 2 * most]);
        disk
    }
}

// The places that a link can name, 17/15 apart.
fn linkable() -> Vec<Place> {
    let all = (1..35).flat_map(|t| (1..16).map(move |s| (t, s)));
    all.filter(|p| *p != (17, 15)).collect()
}

fn disks() -> Vec<(&'static str, u8, Vec<u8>)> {
    let mut all: Vec<(&'static str, u8, Vec<u8>)> = Vec::new();
    let mut add = |what, number, disk: &Disk| all.push((what, number, disk.0.clone()));

    add("an empty catalog", 0, &Disk::new());
    add("no bytes", 1, &Disk(Vec::new()));
    add(
        "one byte less",
        1,
        &Disk(Disk::new().0[..SIZE - 1].to_vec()),
    );
    let mut d = Disk::new();
    d.0.push(0);
    add("one byte more", 1, &d);

    for (tracks, sectors, number) in [
        (35, 13, 0),
        (40, 13, 0),
        (40, 16, 0),
        (36, 16, 2),
        (35, 15, 2),
        (0, 0, 2),
    ] {
        let mut d = Disk::new();
        d.put((17, 0), 52, &[tracks, sectors]);
        add("tracks and sectors of the VTOC", number, &d);
    }
    for (sector, number) in [(0, 0), (1, 0), (16, 3), (255, 3)] {
        let mut d = Disk::new();
        d.put((17, 0), 2, &[sector]);
        add("the first page's sector", number, &d);
    }
    for (link, number) in [
        ((0, 5), 0),
        ((5, 0), 0),
        ((40, 0), 0),
        ((34, 15), 0),
        ((35, 1), 3),
        ((34, 16), 3),
        ((17, 15), 4),
    ] {
        let mut d = Disk::new();
        d.link((17, 15), link);
        add("a page's link", number, &d);
    }
    for (link, number) in [
        ((0, 5), 0),
        ((0, 200), 0),
        ((5, 0), 5),
        ((200, 0), 5),
        ((34, 15), 0),
        ((35, 1), 3),
        ((34, 16), 3),
        ((1, 1), 4),
        ((17, 15), 3),
    ] {
        let mut d = Disk::file(4);
        d.link((1, 1), link);
        add("a list's link", number, &d);
    }
    for (place, number) in [
        ((34, 15), 0),
        ((34, 0), 0),
        ((35, 0), 3),
        ((34, 16), 3),
        ((254, 1), 3),
        ((255, 99), 0),
        ((0, 99), 0),
    ] {
        let mut d = Disk::new();
        d.entry((17, 15), 0, place, 4, &[0xC1]);
        add("an entry's list", number, &d);
        for kind in [4, 0, 0x82] {
            let mut d = Disk::file(kind);
            d.pairs((1, 1), &[place]);
            add("a pair", if place.0 == 255 { 3 } else { number }, &d);
        }
    }
    for (name, number) in [
        (vec![0xC1], 0),
        (vec![0xA0], 0),
        (vec![0x80], 6),
        (vec![0xC1, 0x80], 6),
        (vec![0x81], 0),
        (vec![0], 0),
        (vec![0x20, 0x41, 0x20], 0),
        (vec![0xC1; 30], 0),
        ([vec![0xA0; 29], vec![0x80]].concat(), 6),
    ] {
        let mut d = Disk::file(4);
        d.entry((17, 15), 6, (1, 1), 4, &name);
        add("a name", number, &d);
        d.put((17, 15), 11 + 35 * 6, &[0xFF]);
        add("a dead name", 0, &d);
    }
    for length in [0, 1, 251, 252, 253, 65_535u16] {
        let mut d = Disk::file(4);
        d.put((2, 2), 2, &length.to_le_bytes());
        add("one sector and a length", 0, &d);
    }
    for count in [255, 256, 257, 258] {
        for length in 65_530..=65_535u16 {
            let d = Disk::long(RUST_PAIRS, count, length);
            add("around 65,536 bytes", 0, &d);
        }
    }
    // As many pairs as image-rider reads, and then a zero track. The last of them is followed.
    let mut d = Disk::file(4);
    d.pairs((1, 1), &[(2, 2); RUST_PAIRS]);
    d.pair((1, 1), RUST_PAIRS, (0, 99));
    add("as many pairs as image-rider reads", 0, &d);
    d.pair((1, 1), RUST_PAIRS - 1, (99, 0));
    add("the last pair that image-rider reads, off the disk", 3, &d);

    // One more, in a list that nobody follows.
    let mut d = Disk::file(4);
    d.pairs((1, 2), &FULL);
    add("a full list of no entry", 0, &d);
    d.link((1, 1), (0, 2));
    add("a full list behind the last", 0, &d);
    d.pairs((2, 2), &FULL);
    add("a full list in data", 0, &d);
    d.pairs((0, 2), &FULL);
    d.entry((17, 15), 1, (0, 2), 4, &[0xC2]);
    add("a full list of a dead entry", 0, &d);
    let mut d = Disk::full();
    d.0.pop();
    add("a full list, one byte less", 1, &d);

    // Two of one name: the last counts. The first is looked at all the same.
    let mut d = Disk::file(4);
    d.entry((17, 15), 1, (1, 2), 4, &[0x41]);
    d.pairs((1, 2), &[(2, 3)]);
    d.put((2, 2), 2, &[1, 0]);
    d.put((2, 3), 2, &[2, 0]);
    add("two of one name", 0, &d);
    d.pairs((1, 1), &[(35, 0)]);
    add("two of one name, the first bad", 3, &d);

    // The longest catalog, and the longest lists.
    let mut d = Disk::new();
    let mut last = (17, 15);
    for place in linkable() {
        d.link(last, place);
        last = place;
    }
    add("510 pages", 0, &d);
    d.link(last, (17, 15));
    add("510 pages in a ring", 4, &d);
    let mut d = Disk::new();
    d.entry((17, 15), 0, (1, 1), 4, &[0xC1]);
    let mut last = (1, 1);
    for place in linkable().into_iter().skip(1) {
        d.link(last, place);
        last = place;
    }
    add("509 lists", 0, &d);
    d.link(last, (20, 5));
    add("509 lists in a ring", 4, &d);
    d.link(last, (20, 0));
    add("509 lists and a cut link", 5, &d);
    all
}

// Small inputs that are not compared, since a list has a pair more than image-rider reads, with our number.
fn full_lists() -> Vec<(&'static str, u8, Vec<u8>)> {
    let mut all: Vec<(&'static str, u8, Vec<u8>)> = Vec::new();
    let mut add = |what, number, disk: &Disk| all.push((what, number, disk.0.clone()));

    let mut d = Disk::full();
    add("a full list", 0, &d);
    d.0.push(0);
    add("a full list, one byte more", 1, &d);
    for (last, number) in [((34, 15), 0), ((35, 0), 3), ((34, 16), 3), ((99, 0), 3)] {
        let mut d = Disk::full();
        d.pair((1, 1), RUST_PAIRS, last);
        add("the last pair of a full list", number, &d);
    }
    for (link, number) in [((1, 2), 0), ((1, 0), 5), ((35, 1), 3), ((1, 1), 4)] {
        let mut d = Disk::full();
        d.link((1, 1), link);
        add("a full list and its link", number, &d);
    }
    let mut d = Disk::file(4);
    d.link((1, 1), (34, 15));
    d.pairs((34, 15), &FULL);
    add("a full second list", 0, &d);
    d.link((34, 15), (1, 1));
    add("a full list in a ring", 4, &d);
    let mut d = Disk::file(4);
    d.link((17, 15), (3, 3));
    d.entry((3, 3), 6, (34, 0), 0, &[0xC2]);
    d.pairs((34, 0), &FULL);
    add("a full list of the second page", 0, &d);
    d.pairs((1, 1), &[(35, 0)]);
    add("a full list behind a pair off the disk", 3, &d);
    for count in [255, 256, 257, 258] {
        for length in 65_530..=65_535u16 {
            let d = Disk::long(LIST_PAIRS, count, length);
            add("around 65,536 bytes, full lists", 0, &d);
        }
    }
    all
}

// Small inputs that are not compared, since byte 1 of their VTOC is not 17, with our number.
fn moved_catalogs() -> Vec<(&'static str, u8, Vec<u8>)> {
    let mut all: Vec<(&'static str, u8, Vec<u8>)> = Vec::new();
    let mut add = |what, number, disk: &Disk| all.push((what, number, disk.0.clone()));

    for first in [(1, 15), (34, 0), (34, 15), (16, 15), (0, 5), (0, 0)] {
        let mut d = Disk::moved(first);
        add("a first page off track 17", 0, &d);
        d.link(first, (17, 15));
        add("it leads to track 17", 0, &d);
        d.link((17, 15), (1, 0));
        add("the second page ends with a sector 0", 0, &d);
        d.link((17, 15), (0, 1));
        add("the second page ends with a track 0", 0, &d);
        d.link((17, 15), (17, 15));
        add("the second page in a ring", 4, &d);
        d.link((17, 15), (3, 16));
        add("the second page leads off the disk", 3, &d);
        d.entry((17, 15), 3, (1, 1), 4, &[0x80]);
        add("80h on the second page", 6, &d);
        d.link(first, (35, 1));
        add("a first page that leads off the disk", 3, &d);
        d.entry(first, 6, (1, 1), 0, &[0xC1, 0x80]);
        add("80h on a first page", 6, &d);
        d.pair((1, 1), 0, (35, 0));
        add("80h on a first page, and a pair off the disk", 6, &d);
        d.put((17, 0), 52, &[36]);
        add("no table", 2, &d);
        d.0.push(0);
        add("one byte more", 1, &d);
    }
    for first in [(1, 15), (34, 15), (16, 15)] {
        let mut d = Disk::moved(first);
        d.link(first, first);
        add("a first page that leads to itself", 4, &d);
        d.link(first, (17, 15));
        d.link((17, 15), first);
        add("a ring through the first page", 4, &d);
    }
    for (first, number) in [
        ((35, 15), 3),
        ((35, 0), 3),
        ((255, 15), 3),
        ((16, 16), 3),
        ((0, 16), 3),
        ((18, 255), 3),
        ((18, 0), 0),
    ] {
        let mut d = Disk::file(4);
        d.link((17, 0), first);
        add("another first page beside a page on track 17", number, &d);
        d.entry((17, 15), 0, (1, 1), 4, &[0x80]);
        add("80h on a page that is not read", number, &d);
    }
    all
}

pub fn run(worker: &mut Worker, config: &Config, ours: &mut Ours, report: &mut Report) {
    let random = &mut Random::new(1);
    let compared = disks().into_iter().map(|small| (small, None));
    let full = full_lists().into_iter();
    let full = full.map(|small| (small, Some(LeftOut::FullList)));
    let moved = moved_catalogs().into_iter();
    let moved = moved.map(|small| (small, Some(LeftOut::MovedCatalog)));
    for ((what, number, disk), due) in compared.chain(full).chain(moved) {
        let mine = ours.file(&disk, 0, report).number;
        if mine != number {
            report.difference("load", &disk, format!("{what}: {mine}, not {number}"));
        }
        if load::compare(&disk, random, worker, ours, report) != due {
            report.difference("load", &disk, format!("{what}: compared or left out"));
        }
        if due.is_none() {
            report.compared("small disks with their number");
        }
    }

    // A wrong address sum; a wrong data sum; AAh is read as 0; one nibble short; the full stream of a disk.
    let address = [
        0xD5, 0xAA, 0x96, 0xAA, 0xAA, 0xAA, 0xAA, 0xAA, 0xAA, 0xAA, 0xAA, 0xDE, 0xAA, 0xEB,
    ];
    let mut wrong = address;
    wrong[10] = 0xAB;
    let field = |first: u8, sum: u8| {
        let mut bytes = address.to_vec();
        bytes.extend([0xD5, 0xAA, 0xAD, first]);
        bytes.extend([0x96; 341]);
        bytes.extend([sum, 0xDE, 0xAA, 0xEB]);
        bytes
    };
    let short = field(0x96, 0x96)[..362].to_vec();
    let full = ours.nibblize(&Disk::file(4).0, report).bytes;
    let twice = [field(0x96, 0x96), field(0x97, 0x96)].concat();
    for (number, stream) in [
        (10, Vec::new()),
        (10, address.to_vec()),
        (8, wrong.to_vec()),
        (8, [full.clone(), wrong.to_vec()].concat()),
        (10, wrong[..13].to_vec()),
        (0, field(0x96, 0x96)),
        (0, field(0xAA, 0x96)),
        (0, field(0x97, 0x97)),
        (9, field(0x97, 0x96)),
        (9, field(0x96, 0x97)),
        (0, twice),
        (10, short),
        (10, full),
    ] {
        let mine = ours.sector(&stream, (0, 0, 0), report).number;
        if mine != number {
            report.difference("stream", &stream, format!("{mine}, not {number}"));
        }
        streams::compare(&stream, random, config, ours, report);
        report.compared("small streams with their number");
    }
}
