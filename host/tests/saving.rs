// Saving and deleting on a flat disk: what is saved, refusals and their order, the search, and sequences by chance, held to a plain list of lines and,
// byte for byte, to the words of the request.
mod common;
use common::by_words::{self, at, held, in_use, is_free, lines, mark, sectors, Place, VTOC};
use common::ops::{an_op, delete, save, Op};
use common::to_save::{
    bytes, every_sector, formatted, only_free, start, with_files, BAD_NAMES, SIZES, TABLE,
};
use common::{disk_13, Dice, SIZE};
use dos33::*;
use std::collections::BTreeSet;

// A refused call leaves the disk as it was.
fn save_refused(d: &[u8], name: &[u8], data: &[u8], due: u8) {
    let mut e = d.to_vec();
    assert_eq!(save(&mut e, name, 0x1234, data), due);
    assert!(e == d);
}

fn delete_refused(d: &[u8], name: &[u8], due: u8) {
    let mut e = d.to_vec();
    assert_eq!(delete(&mut e, name), due);
    assert!(e == d);
}

fn last_track(d: &[u8]) -> (u8, u8) {
    (d[TABLE + 48], d[TABLE + 49])
}

// ---- what is saved

#[test]
fn what_is_saved_is_fetched() {
    for (size, data, lists) in SIZES {
        let mut d = formatted();
        let file = bytes(size);
        let mut disk = DiskMut::flat(&mut d);
        disk.save("LINE 7", 0x2345, &file).unwrap();
        let disk = disk.disk();
        assert_eq!(disk.fetch("LINE 7").unwrap(), file);
        assert!(disk.is_clean().unwrap());
        let entry = disk.catalog().unwrap()[0];
        assert_eq!((entry.kind, entry.locked), (FileType::Binary, false));
        assert_eq!(usize::from(entry.sectors), data + lists);
        let lists_at = disk.lists(0).unwrap();
        assert_eq!(lists_at.len(), lists);
        let free = disk.vtoc().unwrap().free;
        assert_eq!(usize::from(free), 33 * 16 - data - lists);

        // The entry's 35 bytes.
        let line = at((17, 15)) + 11;
        let mut due = vec![18, 15, 4];
        due.extend(b"LINE 7".map(|b| b | 0x80));
        due.resize(33, 0xA0);
        due.extend(((data + lists) as u16).to_le_bytes());
        assert_eq!(d[line..line + 35], due);

        // The lists: link, how many pairs are before, the pairs; zeros elsewhere.
        let mut pairs = Vec::new();
        for (k, list) in lists_at.iter().enumerate() {
            let i = at((list.track.0, list.sector.0));
            let n = (data - 122 * k).min(122);
            let mut due = [0; 256];
            if let Some(next) = lists_at.get(k + 1) {
                due[1..3].copy_from_slice(&[next.track.0, next.sector.0]);
            }
            due[5] = 122 * k as u8;
            due[12..12 + 2 * n].copy_from_slice(&d[i + 12..i + 12 + 2 * n]);
            assert_eq!(d[i..i + 256], due);
            pairs.extend(d[i + 12..i + 12 + 2 * n].chunks(2).map(|p| (p[0], p[1])));
        }
        assert_eq!(pairs.len(), data);
        // The data: address, length, bytes, zeros.
        let held: Vec<u8> = pairs
            .iter()
            .flat_map(|p| d[at(*p)..at(*p) + 256].to_vec())
            .collect();
        assert_eq!(held[..2], [0x45, 0x23]);
        assert_eq!(held[2..4], (size as u16).to_le_bytes());
        assert_eq!(held[4..4 + size], file);
        assert!(held[4 + size..].iter().all(|b| *b == 0));
        // In the order of the search: down each track, and a list before its data.
        let mut order = vec![(18, 15)];
        order.extend(&pairs[..data.min(122)]);
        if let Some(second) = lists_at.get(1) {
            order.push((second.track.0, second.sector.0));
            order.extend(&pairs[122..]);
        }
        let route: Vec<Place> = (18..35)
            .flat_map(|t| (0..16).rev().map(move |s| (t, s)))
            .take(order.len())
            .collect();
        assert_eq!(order, route);
        assert_eq!(last_track(&d), (route[route.len() - 1].0, 1));
    }
}

#[test]
fn over_32768_bytes() {
    let d = formatted();
    for n in [SAVE_MOST + 1, 40_000, 65_536, 143_360, 1_000_000] {
        save_refused(&d, b"A", &bytes(n), 21);
    }
    assert_eq!(SAVE_MOST, 32_768);
}

// ---- refusals

#[test]
fn names() {
    let d = with_files();
    for name in BAD_NAMES {
        save_refused(&d, name, &[1], 14);
        delete_refused(&d, name, 14);
    }
    for name in [&b"A"[..], b" A", b"\x01", &[0x7F; 30], b"line 7", b"A  B"] {
        let mut e = d.clone();
        assert_eq!(save(&mut e, name, 0, &[9]), 0);
        let disk = Disk::flat(&e);
        assert_eq!(disk.fetch(name), Ok(vec![9]));
        let catalog = disk.catalog().unwrap();
        assert!(catalog.iter().any(|entry| entry.name.as_bytes() == name));
        save_refused(&e, name, &[], 22);
        assert_eq!(delete(&mut e, name), 0);
        delete_refused(&e, name, 18);
    }
}

// An entry whose name is shown empty, or with a byte 0, is not deleted so.
#[test]
fn names_that_no_delete_takes() {
    let mut d = with_files();
    let line = at((17, 15)) + 11 + 35 * 2;
    d[line + 3..line + 33].fill(0xA0);
    assert_eq!(Disk::flat(&d).catalog().unwrap()[1].name, "");
    delete_refused(&d, b"", 14);
    d[line + 4] = 0;
    assert_eq!(Disk::flat(&d).catalog().unwrap()[1].name, " \0");
    delete_refused(&d, b" \0", 14);
}

// 20, 14, 22, 21; 20, 14, 18. Each disk and call has all that comes behind.
#[test]
fn order() {
    let d = with_files();
    let mut dirty = d.clone();
    mark(&mut dirty, VTOC, true);
    let mut full = d.clone();
    only_free(&mut full, &[]);
    let mut both = full.clone();
    mark(&mut both, VTOC, true);
    let long = bytes(SAVE_MOST + 1);
    for data in [&[][..], &long] {
        for (disk, due) in [(&dirty, [20; 3]), (&both, [20; 3])] {
            save_refused(disk, b"", data, due[0]);
            save_refused(disk, b"NOTES", data, due[1]);
            save_refused(disk, b"NEW", data, due[2]);
        }
        save_refused(&full, b"", data, 14);
        save_refused(&full, b"NOTES", data, 22);
        save_refused(&full, b"NEW", data, 21);
    }
    for disk in [&dirty, &both] {
        for name in [&b""[..], b"NOTES", b"NEW"] {
            delete_refused(disk, name, 20);
        }
    }
    delete_refused(&full, b"NEW ", 14);
    delete_refused(&full, b"NEW", 18);
}

// A shared sector, or a held one that is free in the map; what no one holds may be either.
#[test]
fn not_clean() {
    let d = with_files();
    for place in held(&d) {
        let mut e = d.clone();
        mark(&mut e, place, true);
        save_refused(&e, b"NEW", &[], 20);
        delete_refused(&e, b"NOTES", 20);
    }
    let mut e = d.clone();
    e[at((19, 15)) + 12..][..2].copy_from_slice(&[20, 1]);
    save_refused(&e, b"NEW", &[], 20);
    delete_refused(&e, b"NOTES", 20);
    let mut e = d;
    only_free(&mut e, &[(30, 1), (30, 2)]);
    assert_eq!(save(&mut e, b"NEW", 0, &[]), 0);
    assert_eq!(delete(&mut e, b"NOTES"), 0);
}

// Any live entry of the shown name, locked or not, of any type, however it is cut; a deleted one is none.
#[test]
fn name_taken() {
    let mut d = with_files();
    save_refused(&d, b"LINE 7", &[1], 22);
    save_refused(&d, b"NOTES", &[1], 22);
    let line = at((17, 15)) + 11 + 35 * 2;
    d[line + 3] &= 0x7F;
    save_refused(&d, b"NOTES", &[1], 22);
    d[line + 2] = 0x99;
    save_refused(&d, b"NOTES", &[1], 22);
    let mut e = d.clone();
    assert_eq!(save(&mut e, b"GONE", 0, &[1]), 0);
    assert_eq!(save(&mut e, b"NOTE", 0, &[1]), 0);
    assert_eq!(delete(&mut d, b"NOTES"), 0);
    assert_eq!(save(&mut d, b"NOTES", 0, &[1]), 0);
}

#[test]
fn no_space() {
    let mut d = with_files();
    // Sectors: one less than the need, and just the need.
    for (size, data, lists) in SIZES {
        let need = data + lists;
        let free: Vec<Place> = (21..35)
            .flat_map(|t| (1..16).rev().map(move |s| (t, s)))
            .take(need)
            .collect();
        only_free(&mut d, &free[1..]);
        save_refused(&d, b"NEW", &bytes(size), 21);
        only_free(&mut d, &free);
        let mut e = d.clone();
        assert_eq!(save(&mut e, b"NEW", 0, &bytes(size)), 0);
        assert_eq!(Disk::flat(&e).vtoc().unwrap().free, 0);
    }
    // Lines: 105 of them, each filled.
    let mut d = formatted();
    for k in 0..105 {
        assert_eq!(save(&mut d, format!("N{k}").as_bytes(), 0, &[]), 0);
    }
    assert_eq!(Disk::flat(&d).catalog().unwrap().len(), 105);
    save_refused(&d, b"NEW", &[], 21);
    assert_eq!(delete(&mut d, b"N40"), 0);
    assert_eq!(save(&mut d, b"NEW", 0, &[]), 0);
    assert_eq!(Disk::flat(&d).catalog().unwrap()[40].name, "NEW");
}

#[test]
fn thirteen_sectors_a_track() {
    let mut d = disk_13();
    let v = common::at_13(17, 0);
    d[v + 56..v + 196].fill(0xFF);
    for name in [&b"NEW"[..], b"LINE 7", b""] {
        save_refused(&d, name, &[1], 1);
        delete_refused(&d, name, 1);
    }
    for n in [0, 1, SIZE - 1, SIZE + 1] {
        save_refused(&vec![0; n], b"NEW", &[1], 1);
        delete_refused(&vec![0; n], b"NEW", 1);
    }
}

// ---- the search

// Where the list and the data of one sector went, and the last track and direction after.
fn taken(d: &[u8]) -> (Place, Place, (u8, u8)) {
    let mut e = d.to_vec();
    assert_eq!(save(&mut e, b"NEW", 0, &[7]), 0);
    let mut due = d.to_vec();
    assert_eq!(by_words::save(&mut due, b"NEW", 0, &[7]), 0);
    assert!(e == due);
    let disk = Disk::flat(&e);
    let new = disk
        .catalog()
        .unwrap()
        .iter()
        .position(|x| x.name == "NEW")
        .unwrap();
    let list = disk.lists(new).unwrap()[0];
    let data = disk.pairs(list.track, list.sector).unwrap()[0];
    (
        (list.track.0, list.sector.0),
        (data.track.0, data.sector.0),
        last_track(&e),
    )
}

#[test]
fn legs_of_the_search() {
    // Last track, direction, what is free; list, data, last track and direction after.
    type Case = ((u8, u8), [Place; 2], (Place, Place, (u8, u8)));
    let (up, down) = (1, 255);
    let cases: [Case; 14] = [
        // From the last track itself, and in a track the highest first.
        ((20, up), [(20, 3), (20, 9)], ((20, 9), (20, 3), (20, up))),
        (
            (20, down),
            [(20, 3), (20, 9)],
            ((20, 9), (20, 3), (20, down)),
        ),
        ((20, up), [(34, 0), (21, 5)], ((21, 5), (34, 0), (34, up))),
        ((20, down), [(19, 0), (1, 5)], ((19, 0), (1, 5), (1, down))),
        // The second leg: from 17 the other way.
        ((20, up), [(16, 1), (3, 2)], ((16, 1), (3, 2), (3, down))),
        ((20, up), [(19, 1), (3, 2)], ((3, 2), (19, 1), (19, up))),
        ((10, down), [(18, 1), (33, 2)], ((18, 1), (33, 2), (33, up))),
        // The third: from 17 back, past where it began.
        ((30, up), [(18, 1), (29, 2)], ((18, 1), (29, 2), (29, up))),
        ((5, down), [(16, 1), (6, 2)], ((16, 1), (6, 2), (6, down))),
        // A second leg that begins where the first left it: each sector is sought anew.
        ((34, up), [(16, 0), (34, 4)], ((34, 4), (16, 0), (16, down))),
        // An odd direction counts as 1, a last track over 34 as 17.
        ((20, 0), [(19, 1), (21, 2)], ((21, 2), (19, 1), (19, up))),
        ((20, 254), [(19, 1), (21, 2)], ((21, 2), (19, 1), (19, up))),
        ((35, 77), [(16, 1), (18, 2)], ((18, 2), (16, 1), (16, down))),
        (
            (255, down),
            [(16, 1), (18, 2)],
            ((16, 1), (18, 2), (18, up)),
        ),
    ];
    for (last, free, due) in cases {
        let mut d = formatted();
        only_free(&mut d, &free);
        (d[TABLE + 48], d[TABLE + 49]) = last;
        assert_eq!(taken(&d), due, "{last:?} {free:?}");
    }
}

// Tracks 0, 17 and that of the first page are never taken, free or not.
#[test]
fn tracks_that_are_never_taken() {
    for page in [(17, 15), (20, 1), (20, 0), (0, 9), (34, 15)] {
        let mut d = vec![0xE5; SIZE];
        d[TABLE..TABLE + 256].copy_from_slice(&formatted()[TABLE..TABLE + 256]);
        d[TABLE + 1..TABLE + 3].copy_from_slice(&[page.0, page.1]);
        d[at(page)..at(page) + 256].fill(0);
        for place in every_sector() {
            let closed = [0, 17, page.0].contains(&place.0);
            mark(&mut d, place, closed && place != page && place != VTOC);
        }
        save_refused(&d, b"NEW", &[], 21);
        mark(&mut d, (9, 4), true);
        save_refused(&d, b"NEW", &[], 21);
        mark(&mut d, (33, 7), true);
        let due: BTreeSet<Place> = [(9, 4), (33, 7)].into();
        let (list, data, _) = taken(&d);
        assert_eq!(BTreeSet::from([list, data]), due);
    }
}

// The second list passes over sectors 0, and its data takes them.
#[test]
fn a_later_list_passes_over_sector_0() {
    let mut d = formatted();
    // The first list and its 122 data sectors: 18/15 to 25/5.
    let mut free: Vec<Place> = (18..=25)
        .flat_map(|t| (0..16).rev().map(move |s| (t, s)))
        .take(123)
        .collect();
    free.extend([(27, 0), (28, 0)]);
    only_free(&mut d, &free);
    let file = bytes(31_229);
    // Only sectors 0 are left for it.
    save_refused(&d, b"NEW", &file, 21);
    mark(&mut d, (28, 3), true);
    let mut e = d.clone();
    assert_eq!(save(&mut e, b"NEW", 0, &file), 0);
    let disk = Disk::flat(&e);
    let lists = disk.lists(0).unwrap();
    assert_eq!(lists[1], Location::new(Track(28), Sector(3)));
    // From track 28 up, and then from 17 up again.
    let data = disk.pairs(lists[1].track, lists[1].sector).unwrap();
    assert_eq!(data, [Location::new(Track(28), Sector(0))]);
    assert_eq!(disk.fetch("NEW").unwrap(), file);
    // The first list and data may be in a sector 0.
    let mut d = formatted();
    only_free(&mut d, &[(27, 0), (28, 0)]);
    assert_eq!(taken(&d).0, (27, 0));
}

// ---- deleting

#[test]
fn deleting() {
    let d = with_files();
    let mut e = d.clone();
    // Two entries of the name: the last one goes, then the locked one.
    let second = at((17, 14)) + 11 + 35 * 6;
    let mut due = d.clone();
    due[second] = 255;
    due[second + 32] = 20;
    mark(&mut due, (20, 15), true);
    mark(&mut due, (20, 1), true);
    assert_eq!(delete(&mut e, b"LINE 7"), 0);
    assert!(e == due);
    assert_eq!(
        Disk::flat(&e).fetch("LINE 7").unwrap(),
        common::binary(),
        "the other stays"
    );
    let first = at((17, 15)) + 11;
    due[first] = 255;
    due[first + 32] = 18;
    for sector in [15, 14, 1, 2, 3] {
        mark(&mut due, (18, sector), true);
    }
    assert_eq!(delete(&mut e, b"LINE 7"), 0);
    assert!(e == due);
    delete_refused(&e, b"LINE 7", 18);
    // A text.
    assert_eq!(delete(&mut e, b"NOTES"), 0);
    assert_eq!(Disk::flat(&e).catalog().unwrap(), []);
    assert_eq!(Disk::flat(&e).holders().unwrap().held_once, 3);
}

// A name of 30 letters loses its last one to the old track.
#[test]
fn the_last_letter_of_a_deleted_name() {
    let mut d = formatted();
    assert_eq!(save(&mut d, &[b'Z'; 30], 0, &[]), 0);
    assert_eq!(delete(&mut d, &[b'Z'; 30]), 0);
    let line = at((17, 15)) + 11;
    assert_eq!(d[line..line + 3], [255, 15, 4]);
    assert!(d[line + 3..line + 32].iter().all(|b| *b == b'Z' | 0x80));
    assert_eq!(d[line + 32..line + 35], [18, 2, 0]);
}

// Sectors on track 17, or on that of the first page, become free, and are not taken again.
#[test]
fn sectors_that_are_freed_and_not_taken_again() {
    let mut d = with_files();
    only_free(&mut d, &[]);
    d[at((19, 15)) + 12..][..2].copy_from_slice(&[17, 3]);
    assert_eq!(Disk::flat(&d).is_clean(), Ok(true));
    assert_eq!(delete(&mut d, b"NOTES"), 0);
    assert!(is_free(&d, (17, 3)) && is_free(&d, (19, 15)));
    assert_eq!(Disk::flat(&d).vtoc().unwrap().free, 2);
    save_refused(&d, b"NEW", &[], 21);
}

// A save and the delete of what it saved leave the map and all files as they were.
#[test]
fn a_save_and_its_delete() {
    let before = with_files();
    let mut d = before.clone();
    assert_eq!(save(&mut d, b"NEW", 0, &bytes(32_768)), 0);
    assert_eq!(delete(&mut d, b"NEW"), 0);
    assert_eq!(d[TABLE + 56..TABLE + 196], before[TABLE + 56..TABLE + 196]);
    assert_eq!(
        Disk::flat(&d).archive().unwrap(),
        Disk::flat(&before).archive().unwrap()
    );
}

// Both calls want under 48 KiB of stack, as all others do but denibblizing and opening an archive.
#[test]
fn little_stack() {
    let mut d = with_files();
    let file = bytes(SAVE_MOST);
    let calls = || {
        let mut disk = DiskMut::flat(&mut d);
        disk.save("NEW", 0, &file).unwrap();
        disk.delete("LINE 7").unwrap();
    };
    std::thread::scope(|s| {
        let small = std::thread::Builder::new().stack_size(48 * 1024);
        small.spawn_scoped(s, calls).unwrap().join().unwrap();
    });
    assert_eq!(Disk::flat(&d).fetch("NEW").unwrap(), file);
}

// ---- sequences by chance

// What a line holds.
#[derive(Clone, Debug, PartialEq)]
struct Line {
    raw_name: RawName,
    kind: FileType,
    locked: bool,
    sectors: u16,
    bytes: Vec<u8>,
}

impl From<File> for Line {
    fn from(file: File) -> Line {
        Line {
            raw_name: file.raw_name,
            kind: file.entry.kind,
            locked: file.entry.locked,
            sectors: file.entry.sectors,
            bytes: file.bytes,
        }
    }
}

impl Line {
    // What a save makes.
    fn saved(name: &[u8], data: &[u8]) -> Line {
        let mut raw_name = [0xA0; 30];
        for (to, letter) in raw_name.iter_mut().zip(name) {
            *to = letter | 0x80;
        }
        Line {
            raw_name,
            kind: FileType::Binary,
            locked: false,
            sectors: by_words::sectors_for(data.len()) as u16,
            bytes: data.to_vec(),
        }
    }

    fn shows(&self, name: &[u8]) -> bool {
        by_words::shown(&self.raw_name) == name
    }
}

// The plain ordered list of lines.
type Lines = Vec<Option<Line>>;

fn lines_of(d: &[u8]) -> Lines {
    let mut files = Disk::flat(d).files().unwrap().into_iter().map(Line::from);
    let lines = lines(d);
    let all: Lines = lines
        .into_iter()
        .map(|line| in_use(d, line).then(|| files.next().unwrap()))
        .collect();
    assert_eq!(files.next(), None);
    all
}

fn holds(line: &Option<Line>, name: &[u8]) -> bool {
    line.as_ref().is_some_and(|line| line.shows(name))
}

// The line that an op fills or empties, or the number that the lines alone tell.
fn foreseen(op: &Op, lines: &Lines) -> Result<usize, u8> {
    if !by_words::savable(op.name()) {
        return Err(14);
    }
    let named = lines.iter().rposition(|line| holds(line, op.name()));
    match op {
        Op::Delete(_) => named.ok_or(18),
        Op::Save(..) if named.is_some() => Err(22),
        Op::Save(_, _, data) if data.len() > SAVE_MOST => Err(21),
        Op::Save(..) => lines.iter().position(Option::is_none).ok_or(21),
    }
}

fn differ(d: &[u8], e: &[u8], from: usize, to: usize) -> bool {
    d[from..to] != e[from..to]
}

// Only the VTOC, the entry's page and newly taken sectors change. In the VTOC: last track, direction, the bits of sectors taken or given back; in the page: the line.
fn touches(d: &[u8], e: &[u8], op: &Op, line: usize) {
    assert_eq!(d.len(), e.len());
    let mut taken = BTreeSet::new();
    let mut given = BTreeSet::new();
    for place in every_sector() {
        match (is_free(d, place), is_free(e, place)) {
            (true, false) => taken.insert(place),
            (false, true) => given.insert(place),
            _ => false,
        };
    }
    let (due_taken, due_given) = match op {
        Op::Save(..) => (sectors(e, line), Vec::new()),
        Op::Delete(_) => (Vec::new(), sectors(d, line)),
    };
    // None of them is taken twice.
    assert_eq!(due_taken.len(), taken.len());
    assert_eq!(taken, due_taken.into_iter().collect());
    assert_eq!(given, due_given.into_iter().collect());
    assert!(!taken.iter().any(|p| [0, 17, d[TABLE + 1]].contains(&p.0)));
    let page = line / 256 * 256;
    for place in every_sector() {
        let i = at(place);
        let may = place == VTOC || i == page || taken.contains(&place);
        assert!(may || !differ(d, e, i, i + 256), "{place:?}");
    }
    assert!(!differ(d, e, page, line) && !differ(d, e, line + 35, page + 256));
    for (from, to) in [(0, 48), (50, 56), (196, 256)] {
        assert!(!differ(d, e, TABLE + from, TABLE + to));
    }
    // The third and the fourth map byte of a track are no sector's.
    for track in 0..35 {
        let i = TABLE + 56 + 4 * track;
        assert!(!differ(d, e, i + 2, i + 4));
    }
}

// One call on a clean disk, its lines beside it. The number of the answer.
fn step(d: &mut Vec<u8>, lines_beside: &mut Lines, op: &Op) -> u8 {
    let before = d.clone();
    let mut due = d.clone();
    let due_answer = op.by_words(&mut due);
    let answer = op.on(d);
    assert_eq!(answer, due_answer, "{op:?}");
    assert!(*d == due, "{op:?}");
    match (foreseen(op, lines_beside), op) {
        (Err(number), _) => assert_eq!(answer, number),
        // No sector.
        (Ok(_), Op::Save(..)) if answer == 21 => {}
        (Ok(k), _) => {
            assert_eq!(answer, 0);
            lines_beside[k] = match op {
                Op::Save(name, _, data) => Some(Line::saved(name, data)),
                Op::Delete(_) => None,
            };
            touches(&before, d, op, lines(&before)[k]);
        }
    }
    assert!(answer == 0 || *d == before);
    let disk = Disk::flat(d);
    assert_eq!(disk.is_clean(), Ok(true));
    assert!(lines_of(d) == *lines_beside, "{op:?}");
    if let (0, Op::Save(name, _, data)) = (answer, op) {
        assert!(disk.fetch(name).unwrap() == *data);
    }
    answer
}

// What the sequences met.
#[derive(Default)]
struct Met {
    // How often each number was answered, to a save and to a delete.
    answers: [[usize; 23]; 2],
    // Files saved with two lists, and on disks whose first page is not on track 17.
    two_lists: usize,
    moved: usize,
    // 21 for want of a sector alone.
    no_sector: usize,
}

impl Met {
    fn note(&mut self, op: &Op, lines: &Lines, first_track: u8, answer: u8) {
        let kind = usize::from(matches!(op, Op::Delete(_)));
        self.answers[kind][usize::from(answer)] += 1;
        if let Op::Save(_, _, data) = op {
            let saved = answer == 0;
            self.two_lists += usize::from(saved && data.len() > 31_228);
            self.moved += usize::from(saved && first_track != 17);
            self.no_sector += usize::from(answer == 21 && foreseen(op, lines).is_ok());
        }
    }

    // Each answer came often, and no other: saved, 14, 22, 21; deleted, 14, 18.
    fn enough(&self) {
        let due = [&[0, 14, 21, 22][..], &[0, 14, 18]];
        for (seen, due) in self.answers.iter().zip(due) {
            for (number, n) in seen.iter().enumerate() {
                let good = if due.contains(&number) {
                    *n >= 100
                } else {
                    *n == 0
                };
                assert!(good, "{number}: {seen:?}");
            }
        }
        let others = [self.two_lists, self.moved, self.no_sector];
        assert!(others.into_iter().all(|n| n >= 100), "{others:?}");
    }
}

// So many sequences from a seed.
fn sequences(seed: u64, rounds: usize) {
    let mut dice = Dice(seed);
    let mut met = Met::default();
    for _ in 0..rounds {
        let mut d = start(&mut dice);
        assert_eq!(Disk::flat(&d).is_clean(), Ok(true));
        let mut lines = lines_of(&d);
        for _ in 0..1 + dice.roll(12) {
            let op = an_op(&mut dice);
            let answer = step(&mut d, &mut lines, &op);
            met.note(&op, &lines, d[TABLE + 1], answer);
        }
        not_clean_any_more(&mut d, &mut dice);
    }
    met.enough();
}

// A held sector called free: every call is refused as 20, and the words say so too.
fn not_clean_any_more(d: &mut Vec<u8>, dice: &mut Dice) {
    let held = held(d);
    mark(d, held[dice.roll(held.len())], true);
    let before = d.clone();
    let op = an_op(dice);
    assert_eq!((op.on(d), op.by_words(d)), (20, 20));
    assert!(*d == before);
}

#[test]
fn sequences_by_chance() {
    sequences(0x5AFE, 1500);
}

#[test]
fn more_sequences_by_chance() {
    sequences(0xDE1E7E, 1500);
}
