// The pairs of a list in a lent run.
mod common;
use common::{at, at_13, disk, disk_13};
use dos33::raw::{dos33_pair_run, dos33_pairs};
use dos33::*;

const OLD: TrackSectorPair = TrackSectorPair {
    track_number: 0xA7,
    sector_number: 0x3C,
};
const OLD_LENGTH: u64 = 0xDEAD_BEEF;

fn pair(track_number: u8, sector_number: u8) -> TrackSectorPair {
    TrackSectorPair {
        track_number,
        sector_number,
    }
}

// The small disk with lists of `lengths` pairs on track 30, sector by sector. A pair may be off the disk.
fn with_lists(lengths: &[usize]) -> (Vec<u8>, Vec<Vec<TrackSectorPair>>) {
    let mut d = disk();
    let mut lists = Vec::new();
    for (s, &n) in lengths.iter().enumerate() {
        let list = at(30, s);
        let pairs: Vec<TrackSectorPair> = (0..n)
            .map(|k| pair((k + 1 + 7 * s) as u8, (3 * k + s) as u8))
            .collect();
        for (k, p) in pairs.iter().enumerate() {
            d[list + 12 + 2 * k] = p.track_number;
            d[list + 13 + 2 * k] = p.sector_number;
        }
        // Behind the end, which is a zero track: not read.
        for (k, byte) in [9, 5, 5].into_iter().enumerate() {
            if 13 + 2 * n + k < 256 {
                d[list + 13 + 2 * n + k] = byte;
            }
        }
        lists.push(pairs);
    }
    (d, lists)
}

// The raw call with room for so many: its number, the length, and the run.
fn call(d: &[u8], track: u8, sector: u8, room: usize) -> (u8, u64, Vec<TrackSectorPair>) {
    let mut run = vec![OLD; room];
    let mut length = OLD_LENGTH;
    let p = run.as_mut_ptr();
    let number =
        unsafe { dos33_pair_run(d.as_ptr(), d.len(), track, sector, p, room, &mut length) };
    (number, length, run)
}

#[test]
fn two_bytes_as_in_c() {
    assert_eq!(std::mem::size_of::<TrackSectorPair>(), 2);
    assert_eq!(std::mem::align_of::<TrackSectorPair>(), 1);
    let place = Location::from(pair(18, 15));
    assert_eq!(place, Location::new(Track(18), Sector(15)));
}

#[test]
fn lists_of_many_lengths() {
    let most = [LIST_PAIRS - 3, LIST_PAIRS - 2, LIST_PAIRS - 1, LIST_PAIRS];
    let lengths = [&[0, 1, 2, 5, 6, 7, 60], &most[..]].concat();
    let (d, lists) = with_lists(&lengths);
    let flat = Disk::flat(&d);
    let nibbles = Disk::nibbles(&flat.nibblize().unwrap()).unwrap();
    for (s, due) in lists.iter().enumerate() {
        let n = lengths[s];
        let s = s as u8;
        for room in [n, n + 1, LIST_PAIRS, 500] {
            // Those past the count stay.
            let mut all = due.clone();
            all.resize(room, OLD);
            assert_eq!(call(&d, 30, s, room), (0, n as u64, all.clone()));
            for disk in [&flat, &nibbles] {
                let mut run = vec![OLD; room];
                assert_eq!(disk.pair_run(Track(30), Sector(s), &mut run), Ok(n));
                assert_eq!(run, all);
            }
        }
        // Less space than it needs: 12, and nothing changes.
        for room in (0..n).rev().take(2).chain(0..n.min(1)) {
            assert_eq!(call(&d, 30, s, room), (12, OLD_LENGTH, vec![OLD; room]));
            let mut run = vec![OLD; room];
            assert_eq!(
                flat.pair_run(Track(30), Sector(s), &mut run),
                Err(Refusal::TrayShort)
            );
            assert_eq!(run, vec![OLD; room]);
        }
        let pairs = flat.pairs(Track(30), Sector(s)).unwrap();
        let run: Vec<Location> = due.iter().copied().map(Location::from).collect();
        assert_eq!(pairs, run);
    }
}

// A list without a zero ends with its sector: bytes 254 and 255 are the last pair.
#[test]
fn the_most_pairs() {
    let mut d = disk();
    d[at(30, 0)..at(30, 1)].fill(200);
    d[at(30, 0) + 254..at(30, 1)].copy_from_slice(&[201, 202]);
    let mut due = vec![pair(200, 200); LIST_PAIRS - 1];
    due.extend([pair(201, 202), OLD]);
    assert_eq!(call(&d, 30, 0, LIST_PAIRS + 1), (0, LIST_PAIRS as u64, due));
    let less = LIST_PAIRS - 1;
    assert_eq!(call(&d, 30, 0, less), (12, OLD_LENGTH, vec![OLD; less]));
}

// 1 before 3 before 12, and under each of them nothing changes.
#[test]
fn refusals_in_order() {
    let (d, _) = with_lists(&[6]);
    let longer = [&d[..], &[0]].concat();
    for wrong in [&d[1..], &longer, &[]] {
        for (track, sector) in [(30, 0), (35, 0), (30, 16), (255, 255)] {
            for room in [0, 5, LIST_PAIRS] {
                assert_eq!(
                    call(wrong, track, sector, room),
                    (1, OLD_LENGTH, vec![OLD; room])
                );
            }
        }
        assert_eq!(
            Disk::flat(wrong).pair_run(Track(35), Sector(0), &mut []),
            Err(Refusal::OffSize)
        );
    }
    for (track, sector) in [(35, 0), (30, 16), (34, 16), (255, 255)] {
        for room in [0, 5, LIST_PAIRS] {
            assert_eq!(
                call(&d, track, sector, room),
                (3, OLD_LENGTH, vec![OLD; room])
            );
        }
        let mut run = [OLD; LIST_PAIRS];
        assert_eq!(
            Disk::flat(&d).pair_run(Track(track), Sector(sector), &mut run),
            Err(Refusal::OffDisc)
        );
        assert_eq!(run, [OLD; LIST_PAIRS]);
    }
    for room in 0..6 {
        assert_eq!(call(&d, 30, 0, room), (12, OLD_LENGTH, vec![OLD; room]));
    }
    assert_eq!(call(&d, 30, 0, 6).0, 0);
    // No table is asked for.
    let mut d = d;
    d[at(17, 0) + 52] = 0;
    assert_eq!(call(&d, 30, 0, 6).0, 0);
}

// The same on a disk of 13 sectors a track: 12 is the last sector, 13 is off the disk.
#[test]
fn refusals_in_order_with_13_sectors() {
    let mut d = disk_13();
    d[at_13(30, 12) + 12..at_13(30, 12) + 18].copy_from_slice(&[1, 13, 2, 14, 200, 99]);
    let due = [pair(1, 13), pair(2, 14), pair(200, 99)];
    assert_eq!(call(&d, 30, 12, 3), (0, 3, due.to_vec()));
    assert_eq!(
        call(&d, 30, 12, 5),
        (0, 3, [&due[..], &[OLD, OLD]].concat())
    );
    for room in 0..3 {
        assert_eq!(call(&d, 30, 12, room), (12, OLD_LENGTH, vec![OLD; room]));
    }
    let longer = [&d[..], &[0]].concat();
    for (track, sector) in [(30, 13), (30, 15), (34, 13), (35, 0), (255, 255)] {
        for room in [0, 2, LIST_PAIRS] {
            let number = |d| call(d, track, sector, room);
            assert_eq!(number(&d), (3, OLD_LENGTH, vec![OLD; room]));
            assert_eq!(number(&d[1..]), (1, OLD_LENGTH, vec![OLD; room]));
            assert_eq!(number(&longer), (1, OLD_LENGTH, vec![OLD; room]));
        }
    }
    // No table is asked for.
    d[at_13(17, 0) + 53] = 16;
    assert_eq!(call(&d, 30, 12, 3).0, 0);
}

// Every sector of disks by chance, read as a list: the bytes of `dos33_pairs`, two by two.
#[test]
fn the_same_as_the_bytes() {
    let mut dice = common::Dice(0x9A125);
    let mut lengths = [0; LIST_PAIRS + 1];
    for (zeros, size) in [1, 8, 40, 200]
        .into_iter()
        .flat_map(|z| [(z, DISK_SIZE), (z, DISK_SIZE_13)])
    {
        let d: Vec<u8> = (0..size)
            .map(|_| (dice.roll(255 + zeros)).saturating_sub(zeros - 1) as u8)
            .collect();
        for (t, s) in (0..=35u8).flat_map(|t| (0..=16u8).map(move |s| (t, s))) {
            let room = dice.roll(150);
            let (number, length, run) = call(&d, t, s, room);
            let mut out = vec![0xEE; 2 * room];
            let mut bytes = OLD_LENGTH;
            let p = out.as_mut_ptr();
            let due = unsafe { dos33_pairs(d.as_ptr(), d.len(), t, s, p, 2 * room, &mut bytes) };
            assert_eq!(number, due, "{t}/{s}");
            let on = t < 35 && usize::from(s) < size / 256 / TRACKS;
            assert_eq!(number == 3, !on, "{t}/{s}");
            if number == 0 {
                assert_eq!(2 * length, bytes, "{t}/{s}");
                let n = length as usize;
                let of_bytes = out[..2 * n].chunks_exact(2).map(|p| pair(p[0], p[1]));
                assert!(run[..n].iter().copied().eq(of_bytes), "{t}/{s}");
                assert!(run[n..].iter().all(|&p| p == OLD), "{t}/{s}");
                lengths[n] += 1;
            } else {
                assert_eq!((length, run), (OLD_LENGTH, vec![OLD; room]));
            }
        }
    }
    assert!(lengths[0] > 0 && lengths[1] > 0 && lengths[LIST_PAIRS] > 0);
}
