// Names as they are cut (document 02, Req 07): the 30 name bytes of an entry count, beside what they show.
mod common;
use common::{at_of, disk_of, forms, Dice, EDITIONS};
use dos33::*;

// Where the name bytes of the first entry stand on a disk of `common`.
fn first_name(per: usize) -> usize {
    at_of(per, 17, per - 1) + 11 + 3
}

// What the first 30 bytes show, by the paper's words.
fn shown(raw: &[u8]) -> Vec<u8> {
    let mut letters: Vec<u8> = raw[..30]
        .iter()
        .map(|&b| if b > 0x80 { b - 0x80 } else { b })
        .collect();
    while letters.last() == Some(&0x20) {
        letters.pop();
    }
    letters
}

fn names(disk: &Disk<'_>) -> Vec<Name> {
    let catalog = disk.catalog().unwrap();
    catalog.iter().map(|entry| entry.name).collect()
}

// Names and bytes by name are the same, and so are the sizes of the archives; the archives are not.
fn shows_alike_and_differs(a: &Disk<'_>, b: &Disk<'_>) {
    assert_eq!(names(a), names(b));
    for name in names(a) {
        assert_eq!(a.fetch(name), b.fetch(name));
    }
    let (x, y) = (a.archive().unwrap(), b.archive().unwrap());
    assert_eq!(x.len(), y.len());
    assert_ne!(x, y);
    assert_eq!((a.check(&x), b.check(&y)), (Ok(()), Ok(())));
    assert_eq!(a.check(&y), Err(Refusal::NotItsReturn));
    assert_eq!(b.check(&x), Err(Refusal::NotItsReturn));
}

#[test]
fn each_high_bit_is_another_disk() {
    for per in EDITIONS {
        let good = disk_of(per);
        for k in 0..30 {
            let mut other = good.clone();
            other[first_name(per) + k] ^= 0x80;
            shows_alike_and_differs(&Disk::flat(&good), &Disk::flat(&other));
        }
    }
}

// All pairings of the forms in which a disk arrives: equal archives where the name bytes are equal too, and no others.
#[test]
fn flat_and_nibbles_of_both_editions() {
    let cut = |per, last| {
        let mut d = disk_of(per);
        d[first_name(per) + 29] = last;
        d
    };
    let (one, other) = (0xA0, 0x20);
    let disks = EDITIONS.map(|per| (cut(per, one), cut(per, other)));
    let ones: Vec<Disk<'_>> = disks.iter().flat_map(|(d, _)| forms(d)).collect();
    let others: Vec<Disk<'_>> = disks.iter().flat_map(|(_, d)| forms(d)).collect();
    assert_eq!((ones.len(), others.len()), (4, 4));
    for a in &ones {
        for b in &ones {
            assert_eq!(b.check(&a.archive().unwrap()), Ok(()));
        }
        for b in &others {
            shows_alike_and_differs(a, b);
        }
    }
}

// Two files of one disk that show alike: the last of them is fetched, however it is cut.
#[test]
fn two_on_one_disk() {
    let mut d = disk_of(16);
    d[first_name(16)..first_name(16) + 6].copy_from_slice(b"LINE 7");
    let flat = Disk::flat(&d);
    let files = flat.files().unwrap();
    assert_eq!(files[0].entry.name, files[2].entry.name);
    assert_ne!(files[0].raw_name, files[2].raw_name);
    assert_eq!(files[0].raw_name[..7], *b"LINE 7\xA0");
    assert_eq!(flat.fetch("LINE 7"), Ok(vec![11, 22, 33]));
    assert_eq!(flat.fetch(files[0].raw_name), Err(Refusal::NotOnRoll));
    let bytes = flat.archive().unwrap();
    let archive = Archive::open(&bytes).unwrap();
    let raw: Vec<RawName> = archive.entries().map(|e| *e.raw_name()).collect();
    assert_eq!(
        raw,
        files.iter().map(|f| f.raw_name).collect::<Vec<RawName>>()
    );
}

// Name bytes by chance, with 80h among some: what the archive holds is what stands on the disk.
#[test]
fn names_by_chance() {
    let mut dice = Dice(70);
    let mut refused = 0;
    for _ in 0..300 {
        let mut d = disk_of(16);
        let at = first_name(16);
        for b in &mut d[at..at + 30] {
            *b = match dice.roll(4) {
                0 => 0x20,
                1 => 0xA0,
                _ => dice.roll(256) as u8,
            };
        }
        let flat = Disk::flat(&d);
        if d[at..at + 30].contains(&0x80) {
            refused += 1;
            assert_eq!(flat.archive(), Err(Refusal::BadLetter));
            continue;
        }
        let bytes = flat.archive().unwrap();
        assert_eq!(bytes[256 + 42..256 + 72], d[at..at + 30]);
        let name = shown(&d[at..]);
        assert_eq!(usize::from(bytes[256 + 6]), name.len());
        assert_eq!(bytes[256 + 7..256 + 7 + name.len()], name);
        assert!(bytes[256 + 7 + name.len()..256 + 37]
            .iter()
            .all(|&b| b == 0));
        assert!(bytes[256 + 72..512].iter().all(|&b| b == 0));
        let e = Archive::open(&bytes).unwrap().entries().next().unwrap();
        assert_eq!(
            (e.name().as_bytes(), &e.raw_name()[..]),
            (&name[..], &d[at..at + 30])
        );
    }
    assert!(0 < refused && refused < 150, "{refused}");
}

// 13: a shown name, length or padding that the name bytes do not give, 80h among them, and a byte behind them.
#[test]
fn no_archive() {
    let d = disk_of(16);
    let good = Disk::flat(&d).archive().unwrap();
    let refused = |i: usize, v: u8| {
        let mut bytes = good.clone();
        assert_ne!(bytes[i], v);
        bytes[i] = v;
        assert_eq!(
            Archive::open(&bytes).unwrap_err(),
            Refusal::NotItsReturn,
            "byte {i} as {v}"
        );
    };
    for length in (0..=255).filter(|&n| n != 6) {
        refused(256 + 6, length);
    }
    for k in 0..30 {
        refused(256 + 7 + k, good[256 + 7 + k] ^ 0x80);
        refused(256 + 7 + k, good[256 + 7 + k] ^ 0x01);
        refused(256 + 42 + k, 0x80);
        refused(256 + 42 + k, good[256 + 42 + k] ^ 0x01);
    }
    for k in 72..256 {
        refused(256 + k, 1);
    }
    // The form without name bytes, which document 01 has.
    let mut bytes = good.clone();
    for block in [1, 5, 6] {
        bytes[256 * block + 42..256 * block + 72].fill(0);
    }
    assert_eq!(Archive::open(&bytes).unwrap_err(), Refusal::NotItsReturn);
}
