// What saves of given lengths will need: sums and marks, refusals and their order, and forecasts by chance, held to the saves themselves and to the words of
// the requests.
mod common;
use common::by_words::{self, at, in_use, lines, mark, sectors, Place, VTOC};
use common::to_save::{bytes, formatted, only_free, start, with_files, SIZES, TABLE};
use common::{disk_13, Dice, SIZE};
use dos33::*;

type Told = (usize, usize, usize, Vec<bool>);

fn told(d: &[u8], lengths: &[u64]) -> Told {
    let f = Disk::flat(d).forecast(lengths).unwrap();
    (
        f.data_sectors.into(),
        f.list_sectors.into(),
        f.entry_lines.into(),
        f.no_space,
    )
}

fn refused(d: &[u8], lengths: &[u64], due: u8) {
    let why = Disk::flat(d).forecast(lengths).unwrap_err();
    assert_eq!(why.number(), due);
}

// Data sectors, lists and lines in use, counted on the disk.
fn used(d: &[u8]) -> (usize, usize, usize) {
    let mut n = (0, 0, 0);
    for line in lines(d).into_iter().filter(|line| in_use(d, *line)) {
        let mut lists = 0;
        let mut list = line;
        while d[list] != 0 {
            lists += 1;
            list = at((d[list], d[list + 1])) + 1;
        }
        n.0 += sectors(d, line).len() - lists;
        n.1 += lists;
        n.2 += 1;
    }
    n
}

// ---- sums and marks

#[test]
fn one_length() {
    let d = formatted();
    for (size, data, lists) in SIZES {
        assert_eq!(told(&d, &[size as u64]), (data, lists, 1, vec![false]));
    }
}

#[test]
fn none_and_64_and_65() {
    let d = formatted();
    assert_eq!(told(&d, &[]), (0, 0, 0, vec![]));
    assert_eq!(told(&d, &[0; 64]), (64, 64, 64, vec![false; 64]));
    assert_eq!(PLAN_MOST, 64);
    for n in [65, 66, 255, 256, 64 + 65_536] {
        refused(&d, &vec![0; n], 25);
    }
    assert!(Disk::flat(&d).forecast(&[7; 64]).unwrap().all_go_on());
}

// Any number is a length. One over 32,768 ends in 21, and those round it go on.
#[test]
fn long_lengths() {
    let d = formatted();
    let long = [
        32_769,
        65_535,
        65_536,
        65_541,
        (1 << 32) + 5,
        1 << 63,
        u64::MAX - 4,
        u64::MAX,
    ];
    for k in long {
        assert_eq!(
            told(&d, &[5, k, 32_768]),
            (130, 3, 2, vec![false, true, false])
        );
    }
    assert_eq!(told(&d, &long), (0, 0, 0, vec![true; long.len()]));
}

// What does not go on keeps nothing: a smaller file behind it still fits.
#[test]
fn a_disk_that_fills_half_way() {
    let mut d = formatted();
    let free: Vec<Place> = (1..8).map(|s| (30, s)).collect();
    only_free(&mut d, &free);
    // 3 of 7 sectors; 5; 3; 2; 1 is left.
    let lengths = [400, 1000, 300, 0, 0];
    let due = (4, 2, 2, vec![false, true, false, true, true]);
    assert_eq!(told(&d, &lengths), due);
    // A file of 122 data sectors, and one of 123, which needs a second list.
    let mut d = formatted();
    let free: Vec<Place> = (18..35)
        .flat_map(|t| (1..16).map(move |s| (t, s)))
        .take(124)
        .collect();
    only_free(&mut d, &free);
    let due = (122, 1, 1, vec![true, false, true]);
    assert_eq!(told(&d, &[31_229, 31_228, 0]), due);
}

// Lines are counted down; a deleted line is open.
#[test]
fn no_line_left() {
    let mut d = with_files();
    assert_eq!(used(&d).2, 3);
    // Two pages with 14 lines, three of them in use.
    let mut due = vec![false; 11];
    due.resize(20, true);
    assert_eq!(told(&d, &[10; 20]), (11, 11, 11, due));
    assert!(DiskMut::flat(&mut d).delete("NOTES").is_ok());
    assert_eq!(told(&d, &[10; 12]), (12, 12, 12, vec![false; 12]));
    // One that ends in 21 takes no line.
    let mut lengths = vec![40_000; 5];
    lengths.resize(18, 0);
    let mut due = vec![true; 5];
    due.resize(17, false);
    due.push(true);
    assert_eq!(told(&d, &lengths), (12, 12, 12, due));
}

// Only sectors 0 are left for a second list.
#[test]
fn a_later_list_passes_over_sector_0() {
    let mut d = formatted();
    let mut free: Vec<Place> = (18..=25)
        .flat_map(|t| (0..16).rev().map(move |s| (t, s)))
        .take(123)
        .collect();
    free.extend([(27, 0), (28, 0)]);
    only_free(&mut d, &free);
    let due = (122, 1, 1, vec![true, false]);
    assert_eq!(told(&d, &[31_229, 31_228]), due);
    mark(&mut d, (28, 3), true);
    assert_eq!(told(&d, &[31_229]), (123, 2, 1, vec![false]));
}

// Each search goes on from where the last one left, wherever that is.
#[test]
fn the_search_goes_on() {
    for (last, direction) in [(18, 1), (34, 1), (16, 255), (1, 255), (99, 7)] {
        let mut d = formatted();
        (d[TABLE + 48], d[TABLE + 49]) = (last, direction);
        let lengths: Vec<u64> = (0..64).map(|k| 97 * k * k % 9000).collect();
        as_saved(&d, &lengths, &mut Dice(u64::from(last) + 1));
    }
}

// ---- refusals

#[test]
fn order() {
    let d = with_files();
    let mut dirty = d.clone();
    mark(&mut dirty, VTOC, true);
    for (disk, due) in [(&d[..], 25), (&dirty, 25), (&[], 25), (&d[1..], 25)] {
        refused(disk, &[0; 65], due);
    }
    refused(&dirty, &[0; 64], 20);
    refused(&dirty, &[], 20);
    refused(&d[1..], &[], 1);
    // 2 before 20, and 20 where the map alone is wrong.
    dirty[TABLE + 53] = 15;
    refused(&dirty, &[], 2);
}

#[test]
fn thirteen_sectors_a_track() {
    for lengths in [&[][..], &[0], &[u64::MAX]] {
        refused(&disk_13(), lengths, 1);
        for n in [0, 1, SIZE - 1, SIZE + 1] {
            refused(&vec![0; n], lengths, 1);
        }
    }
}

// Under 48 KiB of stack, as all other calls but denibblizing and opening an archive.
#[test]
fn little_stack() {
    let d = formatted();
    std::thread::scope(|s| {
        let small = std::thread::Builder::new().stack_size(48 * 1024);
        let call = || Disk::flat(&d).forecast(&[32_768; 64]).unwrap();
        let told = small.spawn_scoped(s, call).unwrap().join().unwrap();
        assert_eq!(told.entry_lines, 4);
    });
}

// ---- beside the saves

// The forecast is what the saves do, with any names that are new, any addresses and bytes. How many saves went on.
fn as_saved(d: &[u8], lengths: &[u64], dice: &mut Dice) -> usize {
    let f = Disk::flat(d).forecast(lengths).unwrap();
    let mut e = d.to_vec();
    let mut words = d.to_vec();
    let address = dice.roll(65_536) as u16;
    for (k, length) in lengths.iter().enumerate() {
        // No name of the disks has a dot.
        let name = format!("{}.{k}", ["A", "LINE", "  7"][dice.roll(3)]).into_bytes();
        let data = bytes((*length).min(40_000) as usize);
        let number = DiskMut::flat(&mut e)
            .save(&name, address, &data)
            .err()
            .map_or(0, Refusal::number);
        assert_eq!(number, if f.no_space[k] { 21 } else { 0 }, "{k}");
        assert_eq!(by_words::save(&mut words, &name, address, &data), number);
    }
    assert!(e == words);
    let (before, after) = (used(d), used(&e));
    assert_eq!(after.0 - before.0, usize::from(f.data_sectors));
    assert_eq!(after.1 - before.1, usize::from(f.list_sectors));
    assert_eq!(after.2 - before.2, usize::from(f.entry_lines));
    let go = f.no_space.iter().filter(|mark| !**mark).count();
    assert_eq!(go, usize::from(f.entry_lines));
    go
}

fn a_length(dice: &mut Dice, most: usize) -> u64 {
    match dice.roll(14) {
        0 => 0,
        1 => 252,
        2 => 253,
        3 => [31_228, 31_229][dice.roll(2)],
        4 => [32_767, 32_768][dice.roll(2)],
        5 => [32_769, 65_536, u64::MAX][dice.roll(3)],
        _ => dice.roll(most) as u64,
    }
}

// So many disks from a seed, with plans that fill them, and plans that do not.
fn plans(seed: u64, rounds: usize) {
    let mut dice = Dice(seed);
    // Plans of which all go on, none, some; one that goes on behind one that did not.
    let (mut all, mut none, mut some, mut behind) = (0, 0, 0, 0);
    for _ in 0..rounds {
        let d = start(&mut dice);
        let most = [300, 300, 3000, 33_000][dice.roll(4)];
        let n = [dice.roll(5), dice.roll(20), dice.roll(65)][dice.roll(3)];
        let lengths: Vec<u64> = (0..n).map(|_| a_length(&mut dice, most)).collect();
        let go = as_saved(&d, &lengths, &mut dice);
        let marks = told(&d, &lengths).3;
        all += usize::from(n > 0 && go == n);
        none += usize::from(n > 0 && go == 0);
        some += usize::from(0 < go && go < n);
        behind += usize::from(marks.windows(2).any(|w| w == [true, false]));
    }
    let met = [all, none, some, behind];
    assert!(met.into_iter().all(|n| n >= rounds / 50), "{met:?}");
}

#[test]
fn plans_by_chance() {
    plans(0xF0CA57, 1500);
}

#[test]
fn more_plans_by_chance() {
    plans(0x5EE4, 1500);
}
