// Saving and deleting by two sides: whose a name is, limits, refusals and their order, and sequences of both sides by chance, held to the words of the request
// and, byte for byte, to its claims.
mod common;
use common::by_words::{at, belongs, data_of, held, in_use, lines, lists, mark, own_lines};
use common::by_words::{own_sectors, sectors_for, shown, Place, VTOC};
use common::ops::{an_op_of, delete, save, Op};
use common::to_save::{a_name, bytes, every_sector, formatted, odd_map, odd_search, only_free};
use common::to_save::{start, with_files, BAD_NAMES, SIZES, TABLE};
use common::{disk_13, entry, Dice, SIZE};
use dos33::*;
use std::collections::BTreeSet;

const SIDES: [Side; 2] = [Side::Ours, Side::Survey];

fn other(side: Side) -> Side {
    SIDES[usize::from(side == Side::Ours)]
}

fn save_for(d: &mut [u8], side: Side, limit: u64, name: &[u8], data: &[u8]) -> u8 {
    Op::Save(name.to_vec(), 0x2000, data.to_vec()).on_for(d, side, limit)
}

fn delete_for(d: &mut [u8], side: Side, limit: u64, name: &[u8]) -> u8 {
    Op::Delete(name.to_vec()).on_for(d, side, limit)
}

// A refused call leaves the disk as it was.
fn save_refused(d: &[u8], side: Side, limit: u64, name: &[u8], data: &[u8], due: u8) {
    let mut e = d.to_vec();
    assert_eq!(save_for(&mut e, side, limit, name, data), due, "{side:?}");
    assert!(e == d);
}

fn delete_refused(d: &[u8], side: Side, limit: u64, name: &[u8], due: u8) {
    let mut e = d.to_vec();
    assert_eq!(delete_for(&mut e, side, limit, name), due, "{side:?}");
    assert!(e == d);
}

// How many sectors a side holds.
fn held_by(d: &[u8], side: Side) -> u64 {
    own_sectors(d, side == Side::Survey).len() as u64
}

// A new name of the side.
fn new_name(side: Side) -> &'static [u8] {
    match side {
        Side::Ours => b"NEW",
        Side::Survey => b"S NEW",
    }
}

// The small disk, with "S 1" (14 sectors) and "S 2" (2) saved beside its three files, which hold nine.
fn with_both() -> Vec<u8> {
    let mut d = with_files();
    assert_eq!(save(&mut d, b"S 1", 0x2000, &bytes(3200)), 0);
    assert_eq!(save(&mut d, b"S 2", 0x2000, &[7]), 0);
    assert_eq!(
        (held_by(&d, Side::Ours), held_by(&d, Side::Survey)),
        (9, 16)
    );
    d
}

// ---- whose a name is

// The name is the side's: the other can neither save nor delete it, on the disk or not, whatever its limit.
fn is_of(side: Side, name: &[u8]) {
    let mut d = with_both();
    for limit in [0, 1000, u64::MAX] {
        save_refused(&d, other(side), limit, name, &[1], 23);
        delete_refused(&d, other(side), limit, name, 23);
    }
    delete_refused(&d, side, 1000, name, 18);
    assert_eq!(save_for(&mut d, side, 1000, name, &[1]), 0, "{name:?}");
    for limit in [0, 1000, u64::MAX] {
        save_refused(&d, other(side), limit, name, &[1], 23);
        delete_refused(&d, other(side), limit, name, 23);
    }
    assert_eq!(delete_for(&mut d, side, 0, name), 0);
    delete_refused(&d, side, 1000, name, 18);
}

// 53h alone as the first byte.
#[test]
fn every_first_letter() {
    for b in 1..0x80 {
        let side = if b == 0x53 { Side::Survey } else { Side::Ours };
        is_of(side, &[b, b'1']);
        if b != b' ' {
            is_of(side, &[b]);
        }
    }
}

#[test]
fn whose_a_name_is() {
    for name in [&b"S"[..], b"SURVEY 7", b"SS", b"S s", b"S\x01", &[b'S'; 30]] {
        is_of(Side::Survey, name);
    }
    for name in [&b"s"[..], b"AS", b" S", b"  S", b"LINE S", b"sS", b"\x13"] {
        is_of(Side::Ours, name);
    }
}

// On the disk the first byte is D3h or 53h; in the catalog it is S.
#[test]
fn names_as_they_are_cut() {
    let line = at((17, 15)) + 11 + 35 * 2;
    for (first, side) in [
        (0xD3, Side::Survey),
        (0x53, Side::Survey),
        (0xF3, Side::Ours),
        (0x73, Side::Ours),
        (0x93, Side::Ours),
        (0xA0, Side::Ours),
    ] {
        let mut d = with_files();
        d[line + 3] = first;
        d[line + 4] = 0xD3;
        let name = Disk::flat(&d).catalog().unwrap()[1].name;
        assert_eq!(name.as_bytes()[1], b'S');
        // Two sectors of nine.
        let survey = if side == Side::Survey { 2 } else { 0 };
        assert_eq!(held_by(&d, Side::Survey), survey);
        for (side, holds) in [(Side::Survey, survey), (Side::Ours, 9 - survey)] {
            save_refused(&d, side, holds + 1, new_name(side), &[1], 24);
            let mut e = d.clone();
            assert_eq!(save_for(&mut e, side, holds + 2, new_name(side), &[1]), 0);
        }
        delete_refused(&d, other(side), 1000, name.as_bytes(), 23);
        assert_eq!(delete_for(&mut d, side, 0, name.as_bytes()), 0);
    }
}

// Any byte but 0 is the survey office.
#[test]
fn every_byte_for_a_side() {
    let d = with_both();
    let call = |d: &mut [u8], byte: u8, limit: u64, name: &[u8]| unsafe {
        let (p, n) = (d.as_mut_ptr(), d.len());
        let (a, k) = (name.as_ptr(), name.len());
        raw::dos33_save_for(p, n, byte, limit, a, k, 0x2000, [7].as_ptr(), 1)
    };
    let call_delete = |d: &mut [u8], byte: u8, name: &[u8]| unsafe {
        let (p, n) = (d.as_mut_ptr(), d.len());
        raw::dos33_delete_for(p, n, byte, 0, name.as_ptr(), name.len())
    };
    for byte in 0..=255 {
        let side = if byte == 0 { Side::Ours } else { Side::Survey };
        let (own, others) = (new_name(side), new_name(other(side)));
        let holds = held_by(&d, side);
        let mut e = d.clone();
        assert_eq!(call(&mut e, byte, 1000, others), 23);
        assert_eq!(call_delete(&mut e, byte, others), 23);
        assert_eq!(call(&mut e, byte, holds + 1, own), 24);
        assert_eq!(call_delete(&mut e, byte, own), 18);
        assert!(e == d);
        let mut due = d.clone();
        assert_eq!(call(&mut e, byte, holds + 2, own), 0);
        assert_eq!(save_for(&mut due, side, holds + 2, own, &[7]), 0);
        assert!(e == due);
        assert_eq!(call_delete(&mut e, byte, own), 0);
        assert_eq!(delete_for(&mut due, side, 0, own), 0);
        assert!(e == due);
    }
}

// ---- limits

// Just enough, one too few, none; and what is saved is what a save without a side makes.
#[test]
fn limits() {
    for d in [formatted(), with_files(), with_both()] {
        for side in SIDES {
            for (size, data, lists) in SIZES {
                let (name, file) = (new_name(side), bytes(size));
                let enough = held_by(&d, side) + (data + lists) as u64;
                save_refused(&d, side, 0, name, &file, 24);
                save_refused(&d, side, enough - 1, name, &file, 24);
                let mut due = d.clone();
                assert_eq!(save(&mut due, name, 0x2000, &file), 0);
                // Also limits whose low bytes are zero.
                let far = [256, 1 << 16, 1 << 32, 1 << 63, u64::MAX];
                for limit in [enough, enough + 1].into_iter().chain(far) {
                    let mut e = d.clone();
                    assert_eq!(save_for(&mut e, side, limit, name, &file), 0);
                    assert!(e == due);
                }
            }
        }
    }
}

// What a side holds is counted along its lists. What an entry states, and lines that are not in use, do not count.
#[test]
fn sectors_are_counted_along_the_lists() {
    let line = |k: usize| at((17, 15)) + 11 + 35 * k;
    let survey = held_by(&with_both(), Side::Survey);
    for count in [0, 1, 255, 0x102, 0xFFFF_u16] {
        let mut d = with_both();
        for k in 0..7 {
            d[line(k) + 33..line(k) + 35].copy_from_slice(&count.to_le_bytes());
        }
        for (side, holds) in [(Side::Ours, 9), (Side::Survey, survey)] {
            save_refused(&d, side, holds + 1, new_name(side), &[], 24);
            let mut e = d.clone();
            assert_eq!(save_for(&mut e, side, holds + 2, new_name(side), &[]), 0);
        }
    }
    // Of the survey office two files are deleted, one by one, and of ours the second LINE 7.
    let mut d = with_both();
    assert_eq!(delete(&mut d, b"S 1"), 0);
    save_refused(&d, Side::Survey, 3, b"S 3", &[], 24);
    assert_eq!(delete(&mut d, b"S 2"), 0);
    save_refused(&d, Side::Survey, 1, b"S 3", &[], 24);
    assert_eq!(save_for(&mut d.clone(), Side::Survey, 2, b"S 3", &[]), 0);
    assert_eq!(delete(&mut d, b"LINE 7"), 0);
    save_refused(&d, Side::Ours, 8, b"NEW", &[], 24);
    assert_eq!(save_for(&mut d.clone(), Side::Ours, 9, b"NEW", &[]), 0);
}

// Lists without pairs, lists one behind the other, and a full one.
#[test]
fn lists_of_every_length() {
    let mut d = formatted();
    only_free(&mut d, &[(30, 1), (30, 2)]);
    entry(&mut d, 17, 15, 0, (20, 1), 0, "S EMPTY", 1);
    d[at((20, 1))..at((20, 1)) + 256].fill(0);
    save_refused(&d, Side::Survey, 2, b"S", &[], 24);
    assert_eq!(save_for(&mut d.clone(), Side::Survey, 3, b"S", &[]), 0);
    // A second list with 122 pairs: 1/0 to 8/9.
    d[at((20, 1)) + 1..][..2].copy_from_slice(&[20, 2]);
    d[at((20, 2))..at((20, 2)) + 12].fill(0);
    let data = (1..9).flat_map(|t| (0..16).map(move |s| [t, s])).take(122);
    let pairs: Vec<u8> = data.flatten().collect();
    d[at((20, 2)) + 12..at((20, 2)) + 256].copy_from_slice(&pairs);
    assert_eq!(Disk::flat(&d).is_clean(), Ok(true));
    save_refused(&d, Side::Survey, 125, b"S", &[], 24);
    assert_eq!(save_for(&mut d.clone(), Side::Survey, 126, b"S", &[]), 0);
    save_refused(&d, Side::Ours, 1, b"L", &[], 24);
    assert_eq!(save_for(&mut d.clone(), Side::Ours, 2, b"L", &[]), 0);
}

// Over 32,768 bytes the sum is the same: 24, and 21 where the limit has room.
#[test]
fn long_data() {
    let d = with_both();
    for (size, due) in [
        (32_769, 131),
        (33_020, 131),
        (33_021, 132),
        (62_460, 246),
        (62_461, 248),
        (65_536, 260),
        (143_360, 566),
        (1_000_000, 3940),
    ] {
        let file = bytes(size);
        assert_eq!(sectors_for(size), due);
        for side in SIDES {
            let enough = held_by(&d, side) + due as u64;
            for limit in [0, 100, enough - 1] {
                save_refused(&d, side, limit, new_name(side), &file, 24);
            }
            for limit in [enough, enough + 1, u64::MAX] {
                save_refused(&d, side, limit, new_name(side), &file, 21);
            }
        }
    }
}

// Whoever is over its limit saves nothing more, and can delete.
#[test]
fn a_delete_looks_at_no_limit() {
    for limit in [0, 1, 15, 16, u64::MAX] {
        let mut d = with_both();
        let mut due = d.clone();
        assert_eq!(delete_for(&mut d, Side::Survey, limit, b"S 1"), 0);
        assert_eq!(delete(&mut due, b"S 1"), 0);
        assert!(d == due);
        assert_eq!(delete_for(&mut d, Side::Ours, limit, b"LINE 7"), 0);
        assert_eq!(delete(&mut due, b"LINE 7"), 0);
        assert!(d == due);
    }
}

// ---- refusals

// 20, 14, 23, 22, 24, 21; 20, 14, 23, 18. Each disk and call has all that comes behind.
#[test]
fn order() {
    let mut full = with_both();
    only_free(&mut full, &[]);
    let mut dirty = full.clone();
    mark(&mut dirty, VTOC, true);
    let long = bytes(SAVE_MOST + 1);
    for data in [&[][..], &long] {
        for (side, own, others) in [
            (Side::Ours, &b"NOTES"[..], &b"S 1"[..]),
            (Side::Survey, b"S 1", b"NOTES"),
        ] {
            let new = new_name(side);
            for name in [&b""[..], b"S ", b"L ", own, others, new] {
                save_refused(&dirty, side, 0, name, data, 20);
                delete_refused(&dirty, side, 0, name, 20);
            }
            let surveys = [&b"S "[..], b"S\0", b"S\x80", b"\xD3", &[b'S'; 31]];
            for name in BAD_NAMES.into_iter().chain(surveys) {
                save_refused(&full, side, 0, name, data, 14);
                delete_refused(&full, side, 0, name, 14);
            }
            for name in [others, new_name(other(side))] {
                save_refused(&full, side, 0, name, data, 23);
                delete_refused(&full, side, 0, name, 23);
            }
            save_refused(&full, side, 0, own, data, 22);
            save_refused(&full, side, 0, new, data, 24);
            save_refused(&full, side, u64::MAX, own, data, 22);
            save_refused(&full, side, u64::MAX, new, data, 21);
            delete_refused(&full, side, 0, new, 18);
        }
    }
}

// No line left: 21, and 24 before it.
#[test]
fn no_line_left() {
    let mut d = formatted();
    for k in 0..105 {
        let (side, name) = if k % 2 == 0 {
            (Side::Survey, format!("S{k}"))
        } else {
            (Side::Ours, format!("N{k}"))
        };
        assert_eq!(save_for(&mut d, side, 106, name.as_bytes(), &[]), 0);
    }
    for (side, holds) in [(Side::Survey, 106), (Side::Ours, 104)] {
        assert_eq!(held_by(&d, side), holds);
        save_refused(&d, side, holds + 1, new_name(side), &[], 24);
        save_refused(&d, side, holds + 2, new_name(side), &[], 21);
    }
}

#[test]
fn thirteen_sectors_a_track() {
    for side in SIDES {
        for name in [&b"S"[..], b"NEW", b"LINE 7", b""] {
            save_refused(&disk_13(), side, 0, name, &[1], 1);
            delete_refused(&disk_13(), side, 0, name, 1);
            for n in [0, 1, SIZE - 1, SIZE + 1] {
                save_refused(&vec![0; n], side, u64::MAX, name, &[1], 1);
                delete_refused(&vec![0; n], side, u64::MAX, name, 1);
            }
        }
    }
}

// Every held sector called free, and a shared one.
#[test]
fn not_clean() {
    let d = with_both();
    let mut disks = Vec::new();
    for place in held(&d) {
        let mut e = d.clone();
        mark(&mut e, place, true);
        disks.push(e);
    }
    let mut e = d;
    e[at((19, 15)) + 12..][..2].copy_from_slice(&[20, 1]);
    disks.push(e);
    for e in disks {
        for side in SIDES {
            save_refused(&e, side, u64::MAX, new_name(side), &[], 20);
            delete_refused(&e, side, u64::MAX, b"S 1", 20);
            delete_refused(&e, side, u64::MAX, b"NOTES", 20);
        }
    }
}

// Under 48 KiB of stack, as all other calls but denibblizing and opening an archive.
#[test]
fn little_stack() {
    let mut d = with_both();
    let file = bytes(SAVE_MOST);
    let calls = || {
        let mut disk = DiskMut::flat(&mut d);
        disk.save_for(Side::Survey, 147, "S NEW", 0, &file).unwrap();
        disk.delete_for(Side::Ours, 0, "LINE 7").unwrap();
    };
    std::thread::scope(|s| {
        let small = std::thread::Builder::new().stack_size(48 * 1024);
        small.spawn_scoped(s, calls).unwrap().join().unwrap();
    });
    assert_eq!(Disk::flat(&d).fetch("S NEW").unwrap(), file);
}

// ---- both sides in turn

// Both save in turn, each time as much as a count says, until neither can save any more. What was saved.
fn in_turn(d: &mut [u8], limits: [u64; 2], last: u8) -> Vec<(String, Vec<u8>)> {
    let mut saved = Vec::new();
    let mut refusals = [0; 2];
    for k in 0.. {
        let who = k % 2;
        let size = if refusals[who] == 0 {
            997 * k % 9000
        } else {
            0
        };
        let name = format!("{}{k}", ["LINE ", "S"][who]);
        let file = bytes(size);
        match save_for(d, SIDES[who], limits[who], name.as_bytes(), &file) {
            0 => saved.push((name, file)),
            number => {
                assert_eq!(number, last);
                refusals[who] += 1;
            }
        }
        if refusals.iter().all(|n| *n > 1) {
            return saved;
        }
    }
    saved
}

#[test]
fn in_turn_until_the_disk_is_full() {
    for limits in [[u64::MAX; 2], [528, 528]] {
        let mut d = formatted();
        let saved = in_turn(&mut d, limits, 21);
        let disk = Disk::flat(&d);
        assert_eq!(disk.catalog().unwrap().len(), saved.len());
        for (name, file) in saved {
            assert_eq!(disk.fetch(name).unwrap(), file);
        }
        // 528 sectors can be taken, and the shortest file takes two.
        let free = disk.vtoc().unwrap().free;
        assert!(free < 2);
        let both = held_by(&d, Side::Ours) + held_by(&d, Side::Survey);
        assert_eq!(both, 528 - u64::from(free));
    }
}

#[test]
fn in_turn_until_both_are_at_their_limits() {
    for limits in [[100, 60], [61, 200], [2, 2], [1, 0]] {
        let mut d = formatted();
        let saved = in_turn(&mut d, limits, 24);
        let disk = Disk::flat(&d);
        for (name, file) in saved {
            assert_eq!(disk.fetch(name).unwrap(), file);
        }
        for (side, limit) in SIDES.into_iter().zip(limits) {
            let holds = held_by(&d, side);
            assert!(holds <= limit && limit < holds + 2, "{holds} {limit}");
        }
    }
}

// ---- sequences by chance

struct Call {
    side: Side,
    limit: u64,
    op: Op,
}

impl Call {
    fn on(&self, d: &mut [u8]) -> u8 {
        self.op.on_for(d, self.side, self.limit)
    }

    fn by_words(&self, d: &mut Vec<u8>) -> u8 {
        self.op.by_words_for(d, self.side, self.limit)
    }

    fn is_named_well(&self) -> bool {
        belongs(self.side == Side::Survey, self.op.name())
    }
}

// A name that is most often the side's: one that a line of it shows, or any, for the survey office with an S before it. One of 30 letters loses its last.
fn a_name_for(d: &[u8], side: Side, dice: &mut Dice) -> Vec<u8> {
    let own = own_lines(d, side == Side::Survey);
    if !own.is_empty() && dice.roll(3) == 0 {
        let line = own[dice.roll(own.len())];
        return shown(&d[line + 3..line + 33]);
    }
    let mut name = a_name(dice);
    if side == Side::Survey {
        name.insert(0, b'S');
        if name.len() == 31 {
            name.pop();
        }
    }
    name
}

fn a_call(d: &[u8], side: Side, limit: u64, dice: &mut Dice) -> Call {
    let whose = if dice.roll(8) == 0 { other(side) } else { side };
    let name = a_name_for(d, whose, dice);
    let op = an_op_of(name, dice);
    Call { side, limit, op }
}

// A clean disk, with an S before half of its names, as D3h or as 53h.
fn start_of_both(dice: &mut Dice) -> Vec<u8> {
    let mut d = start(dice);
    for line in lines(&d) {
        if in_use(&d, line) && dice.roll(2) == 0 {
            d.copy_within(line + 3..line + 32, line + 4);
            d[line + 3] = [0xD3, 0x53][dice.roll(2)];
        }
    }
    d
}

// Under what the side holds, just over it, far over it, none.
fn a_limit(d: &[u8], side: Side, dice: &mut Dice) -> u64 {
    let holds = held_by(d, side) as usize;
    match dice.roll(9) {
        0 => dice.roll(holds + 1) as u64,
        1..=3 => (holds + dice.roll(9)) as u64,
        4 => (holds + dice.roll(300)) as u64,
        5 | 6 => 560,
        _ => u64::MAX,
    }
}

// The lines in use by a side, each with its 35 bytes, and the sectors of its files, each with its 256: where they start, and the bytes.
fn belongings(d: &[u8], side: Side) -> Vec<(usize, &[u8])> {
    let survey = side == Side::Survey;
    let lines = own_lines(d, survey).into_iter().map(|i| (i, 35));
    let sectors = own_sectors(d, survey).into_iter().map(|p| (at(p), 256));
    lines
        .chain(sectors)
        .map(|(i, n)| (i, &d[i..i + n]))
        .collect()
}

// Where the data sectors of a side's files start.
fn data_starts(d: &[u8], side: Side) -> BTreeSet<usize> {
    own_lines(d, side == Side::Survey)
        .into_iter()
        .flat_map(|line| lists(d, line))
        .flat_map(|list| data_of(d, list))
        .map(at)
        .collect()
}

// A call that is answered neither 23 nor 24 is the save or the delete of Req 09; so is one under a name of its own, with room.
fn as_without_a_side(before: &[u8], after: &[u8], call: &Call, answer: u8) {
    let mut plain = before.to_vec();
    let number = call.op.on(&mut plain);
    if answer != 23 && answer != 24 {
        assert_eq!(number, answer);
        assert!(plain == after);
    }
    if call.is_named_well() {
        let mut roomy = before.to_vec();
        assert_eq!(call.op.on_for(&mut roomy, call.side, u64::MAX), number);
        assert!(roomy == plain);
    }
}

// The lines of the side go behind all others, in their order.
fn own_lines_last(d: &mut [u8], side: Side) {
    let all = lines(d);
    let own = own_lines(d, side == Side::Survey);
    let others = all.iter().filter(|x| !own.contains(x));
    let order: Vec<usize> = others.chain(&own).copied().collect();
    let before = d.to_vec();
    for (to, from) in all.into_iter().zip(order) {
        d[to..to + 35].copy_from_slice(&before[from..from + 35]);
    }
}

// Another clean disk with the same lines and threads of the side: the other side has saved and deleted, the side's lines stand elsewhere, or the map, the volume
// and where the search begins are others.
fn another_disk(d: &[u8], side: Side, dice: &mut Dice) -> Vec<u8> {
    let mut e = d.to_vec();
    for _ in 0..dice.roll(4) {
        let call = a_call(&e, other(side), u64::MAX, dice);
        call.on(&mut e);
    }
    if dice.roll(2) == 0 {
        own_lines_last(&mut e, side);
    }
    if dice.roll(2) == 0 {
        odd_map(&mut e, dice);
        odd_search(&mut e, dice);
        e[TABLE + 6] = dice.roll(256) as u8;
    }
    e
}

// The lines of a side, in order, wherever they stand; and its sectors.
fn own(d: &[u8], side: Side) -> (Vec<&[u8]>, Vec<Place>) {
    let survey = side == Side::Survey;
    let lines = own_lines(d, survey).into_iter();
    let lines = lines.map(|i| &d[i..i + 35]).collect();
    (lines, own_sectors(d, survey))
}

// On another disk with the same lines and threads of the side's own a call is answered alike, unless one answer is 21.
fn alike(before: &[u8], call: &Call, answer: u8, dice: &mut Dice, met: &mut Met) {
    let mut e = another_disk(before, call.side, dice);
    assert_eq!(Disk::flat(&e).is_clean(), Ok(true));
    assert!(own(&e, call.side) == own(before, call.side));
    let differs = e != before;
    let number = call.on(&mut e);
    if answer == 21 || number == 21 {
        met.excused += usize::from(answer != number);
        return;
    }
    assert_eq!(number, answer);
    met.alike += usize::from(differs);
}

// Where the disks differ in the data bytes of the other's files alone, a call is answered alike always, and what it leaves differs there alone.
fn alike_always(before: &[u8], after: &[u8], call: &Call, answer: u8, dice: &mut Dice) {
    let others = data_starts(before, other(call.side));
    let mut e = before.to_vec();
    for i in &others {
        for part in e[*i..i + 256].chunks_mut(8) {
            part.copy_from_slice(&dice.roll(usize::MAX).to_le_bytes());
        }
    }
    let twin = e.clone();
    assert_eq!(Disk::flat(&e).is_clean(), Ok(true));
    assert_eq!(call.on(&mut e), answer);
    for i in every_sector().map(at) {
        let due = if others.contains(&i) { &twin } else { after };
        assert!(e[i..i + 256] == due[i..i + 256], "{i}");
    }
}

// One call on a clean disk, and all that is claimed of it. The number of the answer.
fn step(d: &mut Vec<u8>, call: &Call, dice: &mut Dice, met: &mut Met) -> u8 {
    let before = d.clone();
    let answer = call.on(d);
    let mut due = before.clone();
    assert_eq!(call.by_words(&mut due), answer, "{:?}", call.op);
    assert!(*d == due, "{:?}", call.op);
    assert!(answer == 0 || *d == before);
    assert_eq!(Disk::flat(d).is_clean(), Ok(true));
    assert!(belongings(d, other(call.side)) == belongings(&before, other(call.side)));
    as_without_a_side(&before, d, call, answer);
    alike(&before, call, answer, dice, met);
    alike_always(&before, d, call, answer, dice);
    answer
}

// What the sequences met.
#[derive(Default)]
struct Met {
    // How often each number was answered, to a save and to a delete, for each side.
    answers: [[[usize; 25]; 2]; 2],
    // Calls answered alike on two disks that differ, and those excused by a 21.
    alike: usize,
    excused: usize,
    // A side that holds just its limit after a save.
    at_limit: usize,
    // Accepted calls with files of the other on the disk.
    beside_others: usize,
}

impl Met {
    fn note(&mut self, d: &[u8], call: &Call, answer: u8) {
        let kind = usize::from(matches!(call.op, Op::Delete(_)));
        let side = usize::from(call.side == Side::Survey);
        self.answers[side][kind][usize::from(answer)] += 1;
        if answer == 0 {
            self.at_limit += usize::from(kind == 0 && held_by(d, call.side) == call.limit);
            self.beside_others += usize::from(held_by(d, other(call.side)) > 0);
        }
    }

    // Each answer came often to each side, and no other: saved, 14, 23, 22, 24, 21; deleted, 14, 23, 18.
    fn enough(&self) {
        let due = [&[0, 14, 21, 22, 23, 24][..], &[0, 14, 18, 23]];
        for (seen, due) in self.answers.iter().flat_map(|of| of.iter().zip(due)) {
            for (number, n) in seen.iter().enumerate() {
                let good = if due.contains(&number) {
                    *n >= 25
                } else {
                    *n == 0
                };
                assert!(good, "{number}: {seen:?}");
            }
        }
        let others = [self.alike, self.excused, self.at_limit, self.beside_others];
        assert!(others.into_iter().all(|n| n >= 25), "{others:?}");
    }
}

// Calls of both sides, or of one alone, each side with one limit. A side that began within its limit never holds more, and no list of calls by one side changes
// what the other has.
fn sequence(dice: &mut Dice, met: &mut Met) {
    let mut d = start_of_both(dice);
    let began = d.clone();
    let limits = SIDES.map(|side| a_limit(&d, side, dice));
    let within = [0, 1].map(|k| held_by(&d, SIDES[k]) <= limits[k]);
    let callers = [&[0][..], &[1], &[0, 1]][dice.roll(3)];
    for _ in 0..1 + dice.roll(8) {
        let who = callers[dice.roll(callers.len())];
        let call = a_call(&d, SIDES[who], limits[who], dice);
        let answer = step(&mut d, &call, dice, met);
        met.note(&d, &call, answer);
        for k in [0, 1] {
            assert!(!within[k] || held_by(&d, SIDES[k]) <= limits[k]);
        }
    }
    if let [who] = callers {
        let other = other(SIDES[*who]);
        assert!(belongings(&d, other) == belongings(&began, other));
    }
    not_clean_any_more(&mut d, dice);
}

// A held sector called free: every call is refused as 20, and the words say so too.
fn not_clean_any_more(d: &mut Vec<u8>, dice: &mut Dice) {
    let held = held(d);
    mark(d, held[dice.roll(held.len())], true);
    let before = d.clone();
    for side in SIDES {
        let call = a_call(d, side, u64::MAX, dice);
        assert_eq!((call.on(d), call.by_words(d)), (20, 20));
        assert!(*d == before);
    }
}

// So many sequences from a seed.
fn sequences(seed: u64, rounds: usize) {
    let mut dice = Dice(seed);
    let mut met = Met::default();
    for _ in 0..rounds {
        sequence(&mut dice, &mut met);
    }
    met.enough();
}

#[test]
fn sequences_by_chance() {
    sequences(0x51DE5, 1000);
}

#[test]
fn more_sequences_by_chance() {
    sequences(0x0FF1CE, 1000);
}
