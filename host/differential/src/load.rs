// The load of a flat disk: apple_disk_parser against the flat functions.
use std::time::Duration;

use crate::disks::{self, start, Place, SIZE};
use crate::ours::{Answer, Ours};
use crate::random::Random;
use crate::report::Report;
use crate::walk::{self, LeftOut};
use crate::worker::{Load, Theirs, Worker};

// How long image-rider has for a disk that holds a ring, and for any other.
const SHORT: Duration = Duration::from_millis(100);
const LONG: Duration = Duration::from_secs(120);

// Names asked for on one disk, and entries looked at.
const MOST: usize = 25;

pub fn load(random: &mut Random, worker: &mut Worker, ours: &mut Ours, report: &mut Report) {
    let disk = disks::disk(random);
    compare(&disk, random, worker, ours, report);
}

// Compares, unless the disk is left out: then ours alone is called. Gives why it was left out.
pub fn compare(
    disk: &[u8],
    random: &mut Random,
    worker: &mut Worker,
    ours: &mut Ours,
    report: &mut Report,
) -> Option<LeftOut> {
    assert_ne!(disk.len(), disks::SIZE_13, "a disk of 13 sectors a track");
    let mine = mine(disk, random, ours, report);
    let why = walk::left_out(disk);
    if let Some(why) = why {
        report.left_out(why);
        if let Err(text) = left_out(disk, &mine, ours, report) {
            report.difference("load", disk, text);
        }
    } else {
        beside(disk, &mine, random, worker, ours, report);
    }
    why
}

// The number of the whole disk, and what the calls give that stop before.
struct Mine {
    whole: u8,
    table: (u8, Vec<u64>),
    catalog: Answer,
}

// Ours alone: the numbers of the calls agree.
fn mine(disk: &[u8], random: &mut Random, ours: &mut Ours, report: &mut Report) -> Mine {
    let differ = |report: &Report, text: String| -> ! { report.difference("load", disk, text) };
    let entry = random.below(8) as u64;
    let whole = ours.file(disk, entry, report).number;
    let table = ours.vtoc(disk, report);
    let catalog = ours.catalog(disk, report);
    for number in [table.0, catalog.number] {
        if number != 0 && number != whole {
            differ(report, format!("{number} before {whole}"));
        }
    }
    if (whole <= 2 && table.0 != whole)
        || (whole == 6 && catalog.number != 6)
        || (whole == 5 && catalog.number != 0)
    {
        differ(
            report,
            format!("VTOC {}, catalog {}, file {whole}", table.0, catalog.number),
        );
    }
    if whole != 0 {
        let name = random.bytes(3);
        let others = [
            ours.lists(disk, entry, report).number,
            ours.fetch(disk, &name, report).number,
        ];
        if others != [whole, whole] {
            differ(report, format!("lists and fetch {others:?}, file {whole}"));
        }
    }
    ours.pairs_somewhere(disk, report);
    Mine {
        whole,
        table,
        catalog,
    }
}

// A disk that is not compared: its number, its catalog and its first entries are by the rule of the documents, with the
// first page where the VTOC says and all pairs of a list.
fn left_out(disk: &[u8], mine: &Mine, ours: &mut Ours, report: &mut Report) -> Result<(), String> {
    if mine.table.0 != 0 {
        return Ok(());
    }
    let due = walk::catalog(disk).map_or_else(refused, |bytes| given(&bytes));
    if mine.catalog != due {
        let text = format!("the catalog is not by the rule, number {}", due.number);
        return Err(text);
    }
    let due = walk::number(disk);
    if mine.whole != due {
        return Err(format!("{}, by the rule {due}", mine.whole));
    }
    if due != 0 {
        return Ok(());
    }
    for (k, e) in mine.catalog.bytes.chunks_exact(37).take(MOST).enumerate() {
        let first = (e[0], e[1]);
        let lists = walk::lists(disk, first).places;
        if ours.lists(disk, k as u64, report) != given(&flat(&lists)) {
            return Err(format!("entry {k}: the lists are not by the rule"));
        }
        for place in lists {
            let pairs = walk::pairs(disk, place);
            if ours.pairs(disk, place.0, place.1, report) != given(&flat(&pairs)) {
                return Err(format!("list {place:?}: the pairs are not by the rule"));
            }
        }
        if ours.file(disk, k as u64, report) != given(&by_rule(disk, first, e[2])) {
            return Err(format!("entry {k}: the bytes are not by the rule"));
        }
    }
    Ok(())
}

fn given(bytes: &[u8]) -> Answer {
    Answer {
        number: 0,
        bytes: bytes.to_vec(),
    }
}

fn refused(number: u8) -> Answer {
    Answer {
        number,
        bytes: Vec::new(),
    }
}

fn flat(places: &[Place]) -> Vec<u8> {
    places.iter().flat_map(|p| [p.0, p.1]).collect()
}

fn beside(
    disk: &[u8],
    mine: &Mine,
    random: &mut Random,
    worker: &mut Worker,
    ours: &mut Ours,
    report: &mut Report,
) {
    let differ = |report: &Report, text: String| -> ! { report.difference("load", disk, text) };
    let Mine {
        whole,
        table,
        catalog,
    } = mine;
    let whole = *whole;
    report.compared("apple_disk_parser");

    let ring = disk.len() >= SIZE && holds_ring(disk);
    let mut theirs = worker.load(disk, if ring { SHORT } else { LONG });
    // Late alone is no ring.
    if ring && whole != 4 && disk.len() == SIZE && matches!(theirs, Theirs::Late) {
        theirs = worker.load(disk, LONG);
    }

    if disk.len() > SIZE {
        if whole != 1 {
            differ(report, format!("{} bytes: {whole}", disk.len()));
        }
        if matches!(theirs, Theirs::Loaded(_)) {
            report.explained("size of a flat disk: more than 143,360 bytes accepted, ours 1");
        }
        return;
    }
    match theirs {
        Theirs::Late => {
            if whole != 4 || !ring {
                differ(report, format!("the Rust does not return, ours {whole}"));
            }
            report.explained("ring of pages or lists: runs for ever, ours 4");
        }
        Theirs::Failed(text) => {
            let expected = if disk.len() < SIZE { 1 } else { 2 };
            if whole != expected {
                differ(report, format!("error {text}, ours {whole}"));
            }
            report.compared("apple_disk_parser, an error against its number");
        }
        Theirs::Panicked(text) => {
            // The length + 4 in 16 bits: the second where overflow is checked.
            let long = ["starts at 4 but ends at", "attempt to add with overflow"];
            if long.iter().any(|l| text.contains(l)) {
                if whole == 0 {
                    for k in 0..catalog.bytes.len() / 37 {
                        let e = &catalog.bytes[37 * k..37 * k + 37];
                        let expected = given(&by_rule(disk, (e[0], e[1]), e[2]));
                        if ours.file(disk, k as u64, report) != expected {
                            differ(report, format!("entry {k} is not by the length rule"));
                        }
                        report.compared("long Binary lengths: entries by the rule");
                    }
                }
                report.explained(
                    "Binary lengths of 65,532 and more that fit: panics, ours the length rule",
                );
                return;
            }
            let expected: &[u8] = if text.contains("index out of bounds") {
                // 5 is for a link to sector 0 of a track off the disk.
                &[3, 5]
            } else if text.contains("Option::unwrap()") {
                &[5]
            } else if text.contains("Utf8Error") {
                &[6]
            } else {
                &[]
            };
            if !expected.contains(&whole)
                || (whole == 5 && expected.len() == 2 && !holds_far_cut(disk))
            {
                differ(report, format!("panic {text}, ours {whole}"));
            }
            report.compared("apple_disk_parser, a panic against its number");
        }
        Theirs::Loaded(load) => {
            if whole != 0 {
                differ(report, format!("the Rust returns, ours {whole}"));
            }
            if table.1[..10] != load.vtoc {
                differ(
                    report,
                    format!("VTOC {:?} against {:?}", table.1, load.vtoc),
                );
            }
            if catalog.bytes != load.entries {
                differ(report, "other catalog".into());
            }
            if let Err(text) = loaded(disk, &load, random, ours, report) {
                differ(report, text);
            }
            report.compared("apple_disk_parser, a load against ours");
        }
    }
}

fn loaded(
    disk: &[u8],
    load: &Load,
    random: &mut Random,
    ours: &mut Ours,
    report: &mut Report,
) -> Result<(), String> {
    let count = load.files.len();

    // By name: the last entry's bytes.
    for (name, data) in some(&load.names, random) {
        if ours.fetch(disk, name, report) != given(data) {
            return Err(format!("other bytes for the name {name:?}"));
        }
        let last = (0..count)
            .rev()
            .find(|k| shown(&load.entries, *k) == name.as_slice());
        if last.is_none_or(|k| load.files[k] != *data) {
            return Err(format!("the Rust's last entry of the name {name:?}"));
        }
        report.compared("file bytes by name");
    }

    // Names that are not there, near to those that are.
    for _ in 0..3 {
        let length = random.below(32);
        let mut name = random.bytes(length);
        if !load.names.is_empty() {
            let k = random.below(load.names.len());
            name = load.names[k].0.clone();
            match random.below(4) {
                0 => name.push(b' '),
                1 => drop(name.pop()),
                2 => name.iter_mut().for_each(|b| *b |= 0x80),
                _ => name.push(b'A'),
            }
        }
        let there = load.names.iter().find(|(n, _)| *n == name);
        let expected = match there {
            Some((_, data)) => given(data),
            None => refused(18),
        };
        if ours.fetch(disk, &name, report) != expected {
            return Err(format!("name {name:?}"));
        }
        report.compared("names that may be missing");
    }

    // By entry: bytes, lists, pairs. A number past the catalog has none.
    let mut numbers: Vec<usize> = (0..count).collect();
    while numbers.len() > MOST {
        let k = random.below(numbers.len());
        numbers.swap_remove(k);
    }
    for k in numbers {
        if ours.file(disk, k as u64, report) != given(&load.files[k]) {
            return Err(format!("other bytes for entry {k}"));
        }
        let mut place = (load.entries[37 * k], load.entries[37 * k + 1]);
        let mut thread = Vec::new();
        for list in &load.lists[k] {
            thread.extend([place.0, place.1]);
            if ours.pairs(disk, place.0, place.1, report) != given(&list[2..]) {
                return Err(format!("other pairs in the list at {place:?}"));
            }
            place = (list[0], list[1]);
        }
        if ours.lists(disk, k as u64, report) != given(&thread) {
            return Err(format!("other lists for entry {k}"));
        }
        report.compared("entries: bytes, lists and pairs");
    }
    for past in [count as u64, count as u64 + 7, u64::MAX] {
        if ours.file(disk, past, report) != given(&[])
            || ours.lists(disk, past, report) != given(&[])
        {
            return Err(format!("entry {past} of {count}"));
        }
    }
    Ok(())
}

fn some<'a, T>(all: &'a [T], random: &mut Random) -> Vec<&'a T> {
    if all.len() <= MOST {
        return all.iter().collect();
    }
    (0..MOST).map(|_| &all[random.below(all.len())]).collect()
}

fn shown(entries: &[u8], k: usize) -> &[u8] {
    let e = &entries[37 * k..];
    &e[5..5 + e[4] as usize]
}

fn holds_ring(disk: &[u8]) -> bool {
    let ring = |first| walk::lists(disk, first).ring;
    walk::pages(disk).ring || walk::first_lists(disk).into_iter().any(ring)
}

// A link to sector 0 of a track off the disk.
fn holds_far_cut(disk: &[u8]) -> bool {
    walk::first_lists(disk).into_iter().any(|first| {
        let end = walk::lists(disk, first).end;
        end != first && end.0 > 34 && end.1 == 0
    })
}

// A file's bytes by the rule of document 01, on a disk with no number.
fn by_rule(disk: &[u8], first: Place, kind: u8) -> Vec<u8> {
    let mut data = Vec::new();
    for list in walk::lists(disk, first).places {
        for pair in walk::pairs(disk, list) {
            let at = start(pair);
            data.extend(&disk[at..at + 256]);
        }
    }
    if kind != 4 || data.is_empty() {
        return Vec::new();
    }
    let length = data[2] as usize + 256 * data[3] as usize;
    if length <= data.len() - 4 {
        data = data[4..4 + length].to_vec();
    }
    data
}
