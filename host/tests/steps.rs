// Steps through an archive, block by block, beside the call that opens it each time.
mod common;
use common::disk;
use dos33::raw::*;
use dos33::*;

const OLD: u64 = 0xDEAD_BEEF;

type Step = unsafe extern "C" fn(*const u8, usize, u64, *mut u64, usize) -> u8;

// With room for so many: the number, and what the elements hold.
fn call(step: Step, archive: &[u8], block: u64, room: usize) -> (u8, Vec<u64>) {
    let mut fields = vec![OLD; room];
    let p = fields.as_mut_ptr();
    let number = unsafe { step(archive.as_ptr(), archive.len(), block, p, room) };
    (number, fields)
}

// Along the chain from where opening begins: both give the same at each block, and then the end, again and again. How many entries there were.
fn along(archive: &[u8]) -> usize {
    let mut open = [0u64; 3];
    let p = open.as_mut_ptr();
    assert_eq!(
        unsafe { dos33_archive_open(archive.as_ptr(), archive.len(), p, 3) },
        0
    );
    let mut block = open[1];
    let mut count = 0;
    loop {
        let (number, fields) = call(dos33_archive_step, archive, block, 8);
        assert_eq!(number, 0);
        assert_eq!(
            call(dos33_archive_entry, archive, block, 8),
            (0, fields.clone())
        );
        // Elements past the eight stay, and with fewer it is 12.
        let more = [&fields[..], &[OLD; 2]].concat();
        assert_eq!(call(dos33_archive_step, archive, block, 10), (0, more));
        for room in 0..8 {
            assert_eq!(
                call(dos33_archive_step, archive, block, room),
                (12, vec![OLD; room])
            );
        }
        if fields[0] == 0 {
            assert_eq!(fields, [0; 8]);
            break;
        }
        count += 1;
        block = fields[1];
    }
    assert_eq!(block, 0);
    for _ in 0..3 {
        assert_eq!(call(dos33_archive_step, archive, block, 8), (0, vec![0; 8]));
    }
    // Numbers that are no block of an archive.
    for block in [
        4096,
        4097,
        65_536,
        65_537,
        (1 << 32) + 1,
        (1 << 56) + 1,
        u64::MAX,
    ] {
        let end = call(dos33_archive_step, archive, block, 8);
        assert_eq!(end, (0, vec![0; 8]), "block {block}");
        let short = call(dos33_archive_step, archive, block, 7);
        assert_eq!(short, (12, vec![OLD; 7]), "block {block}");
    }
    count
}

// A disk with so many Text files that have no bytes.
fn texts(files: usize) -> Vec<u8> {
    let mut d = vec![0u8; common::SIZE];
    let v = common::at(17, 0);
    d[v + 1..v + 3].copy_from_slice(&[17, 15]);
    d[v + 6] = 7;
    d[v + 52] = 35;
    d[v + 53] = 16;
    for f in 0..files {
        let (page, slot) = (15 - f / 7, f % 7);
        let name = format!("TEXT {f}");
        common::entry(&mut d, 17, page, slot, (20, 1), 0, &name, f as u16);
        if slot == 0 && f > 0 {
            let before = common::at(17, page + 1);
            d[before + 1] = 17;
            d[before + 2] = page as u8;
        }
    }
    d
}

#[test]
fn the_small_disk() {
    let d = disk();
    let archive = Disk::flat(&d).archive().unwrap();
    assert_eq!(along(&archive), 3);
    // Entry blocks 1, 5 and 6: 600 bytes are blocks 2, 3 and 4, and 3 bytes are block 7.
    for (block, due) in [
        (1, [1, 5, 2, 4, 1, 6, 5, 600]),
        (5, [1, 6, 0, 0, 0, 5, 2, 0]),
        (6, [1, 0, 7, 4, 0, 6, 0x102, 3]),
    ] {
        let step = call(dos33_archive_step, &archive, block, 8);
        assert_eq!(step, (0, due.to_vec()), "block {block}");
    }
    for block in [0, 2, 3, 4, 7, 8, 9] {
        let end = call(dos33_archive_step, &archive, block, 8);
        assert_eq!(end, (0, vec![0; 8]), "block {block}");
    }
}

#[test]
fn none_one_and_many() {
    for files in [0, 1, 2, 7, 8, 105] {
        let d = texts(files);
        let archive = Disk::flat(&d).archive().unwrap();
        assert_eq!(archive.len(), 256 * (1 + files));
        assert_eq!(along(&archive), files);
        let opened = Archive::open(&archive).unwrap();
        let names: Vec<String> = opened.entries().map(|e| e.name().to_string()).collect();
        let due: Vec<String> = (0..files).map(|f| format!("TEXT {f}")).collect();
        assert_eq!(names, due);
        assert!(opened
            .entries()
            .enumerate()
            .all(|(f, e)| usize::from(e.sectors()) == f));
    }
    for files in [1, 3] {
        let d = common::large(files);
        assert_eq!(along(&Disk::flat(&d).archive().unwrap()), files);
    }
}

// The exact call of the crate: entry blocks alone, and the entry that the iteration shows there.
#[test]
fn entries_by_block() {
    for d in [disk(), texts(20), common::large(2)] {
        let bytes = Disk::flat(&d).archive().unwrap();
        let archive = Archive::open(&bytes).unwrap();
        let mut steps = archive.entries().peekable();
        for block in 0..archive.blocks() as u64 + 2 {
            match steps.next_if(|e| e.block() == block) {
                None => assert!(archive.entry(block).is_none(), "block {block}"),
                Some(e) => {
                    let same = archive.entry(block).unwrap();
                    assert_eq!((same.block(), same.name()), (block, e.name()));
                    assert_eq!(
                        (same.kind(), same.locked(), same.sectors(), same.len()),
                        (e.kind(), e.locked(), e.sectors(), e.len())
                    );
                    assert_eq!(same.to_vec(), e.to_vec());
                }
            }
        }
        assert!(steps.next().is_none());
        for block in [4096, 65_537, (1 << 32) + 1, u64::MAX] {
            assert!(archive.entry(block).is_none());
        }
    }
}

// What a caller must know: the bytes of a file can look like an entry block, and bytes are not judged.
#[test]
fn blocks_that_no_step_gave() {
    // One Binary file of 254 bytes, its name empty: block 1 its entry, block 2 its data. Zeros do not look like
    // an entry: 30 name bytes of zero show 30 letters.
    let mut archive = vec![0u8; 3 * 256];
    archive[1] = 1;
    archive[3] = 3;
    archive[256 + 2] = 2;
    archive[256 + 4] = 4;
    archive[256 + 39] = 254;
    archive[256 + 42..256 + 72].fill(0xA0);
    assert_eq!(along(&archive), 1);
    assert_eq!(call(dos33_archive_step, &archive, 2, 8), (0, vec![0; 8]));
    // A Text file without a name does.
    archive[512 + 42..512 + 72].fill(0xA0);
    assert_eq!(along(&archive), 1);
    assert_eq!(
        call(dos33_archive_step, &archive, 2, 8),
        (0, vec![1, 0, 0, 0, 0, 0, 0, 0])
    );
    assert_eq!(call(dos33_archive_entry, &archive, 2, 8), (0, vec![0; 8]));
    assert!(Archive::open(&archive).unwrap().entry(2).is_none());
    // No archive any more: the step has no 13.
    archive[3] = 2;
    assert_eq!(
        call(dos33_archive_entry, &archive, 1, 8),
        (13, vec![OLD; 8])
    );
    assert_eq!(
        call(dos33_archive_step, &archive, 1, 8),
        (0, vec![1, 0, 2, 4, 0, 0, 0, 254])
    );
    assert_eq!(call(dos33_archive_step, &[], 1, 8), (0, vec![0; 8]));
}
