// Ours beside image-rider on the same inputs, and archives beside a copy of as many bytes. Prints times and ratios.
// And one thing done so many times over, for a counter of instructions (count.sh).
use std::hint::black_box;
use std::time::Instant;

use dos33::Disk;

use crate::config::Config;
use crate::disk_format::apple::disk::{apple_disk_parser, AppleDiskGuess, Encoding, Format};
use crate::disk_format::apple::nibble::{build_nibble_sector, parse_nib_disk};
use crate::disks::{SIZE, SIZE_13};
use crate::random::Random;
use crate::streams::tail;
use crate::thirteen;

mod raw {
    extern "C" {
        pub fn dos33_catalog(
            d: *const u8,
            n: usize,
            out: *mut u8,
            size: usize,
            length: *mut u64,
        ) -> u8;
        pub fn dos33_file(
            d: *const u8,
            n: usize,
            entry: u64,
            out: *mut u8,
            size: usize,
            length: *mut u64,
        ) -> u8;
        pub fn dos33_survey(d: *const u8, n: usize, fields: *mut u64, count: usize) -> u8;
        pub fn dos33_holders(d: *const u8, n: usize, fields: *mut u64, count: usize) -> u8;
        pub fn dos33_save(
            d: *mut u8,
            n: usize,
            name: *const u8,
            name_length: usize,
            address: u16,
            data: *const u8,
            data_length: usize,
        ) -> u8;
        pub fn dos33_delete(d: *mut u8, n: usize, name: *const u8, name_length: usize) -> u8;
        pub fn dos33_save_for(
            d: *mut u8,
            n: usize,
            side: u8,
            limit: u64,
            name: *const u8,
            name_length: usize,
            address: u16,
            data: *const u8,
            data_length: usize,
        ) -> u8;
        pub fn dos33_forecast(
            d: *const u8,
            n: usize,
            lengths: *const u64,
            lengths_length: usize,
            fields: *mut u64,
            count: usize,
        ) -> u8;
        pub fn dos33_archive_write(
            d: *const u8,
            n: usize,
            out: *mut u8,
            size: usize,
            length: *mut u64,
        ) -> u8;
        pub fn dos33_archive_check(d: *const u8, n: usize, archive: *const u8, size: usize) -> u8;
        pub fn dos33_archive_open(
            archive: *const u8,
            size: usize,
            fields: *mut u64,
            count: usize,
        ) -> u8;
        pub fn dos33_encode_sector(
            s: *const u8,
            n: usize,
            out: *mut u8,
            size: usize,
            length: *mut u64,
        ) -> u8;
        pub fn dos33_nibblize(
            d: *const u8,
            n: usize,
            out: *mut u8,
            size: usize,
            length: *mut u64,
        ) -> u8;
        pub fn dos33_denibblize(
            s: *const u8,
            n: usize,
            out: *mut u8,
            size: usize,
            length: *mut u64,
        ) -> u8;
        pub fn dos33_denibblize_13(
            s: *const u8,
            n: usize,
            out: *mut u8,
            size: usize,
            length: *mut u64,
        ) -> u8;
    }
}

// How many files a disk has, and how many data sectors each of them.
type Kind = (u64, usize);

// Three full disks, and an almost empty one.
const FULL: [Kind; 3] = [(75, 6), (25, 20), (8, 65)];
const SMALL: Kind = (1, 6);

// What is saved: the largest file there is.
const SAVED: usize = 32_768;
const NAME: &[u8] = b"SAVED";

// What is saved by a side, ours: it holds nearly all that the disk has, and that is counted.
const OUR_NAME: &[u8] = b"LINE7";

// What a shift may plan: 64 files each of the same length.
const PLANS: [(&str, u64); 3] = [
    ("64 of 250 bytes foreseen", 250),
    ("64 of 1,000 bytes", 1_000),
    ("64 of 32,768 bytes", 32_768),
];

// A disk of Binary files, one list each.
fn disk_of(random: &mut Random, (files, size): Kind) -> Vec<u8> {
    let mut disk = vec![0u8; SIZE];
    let start = |sector: usize| 256 * sector;
    let vtoc = start(17 * 16);
    disk[vtoc + 1] = 17;
    disk[vtoc + 2] = 15;
    disk[vtoc + 6] = 254;
    disk[vtoc + 52] = 35;
    disk[vtoc + 53] = 16;
    // A pair with track 0 is none, and an entry with list track 0 is not in use.
    let free: Vec<usize> = (16..560).filter(|s| s / 16 != 17).collect();
    let lots = free.chunks_exact(size + 1).take(files as usize);
    for (count, sectors) in lots.enumerate() {
        let page = start(17 * 16 + 15 - count / 7);
        if count % 7 == 0 && count > 0 {
            disk[page + 256 + 1] = 17;
            disk[page + 256 + 2] = (15 - count / 7) as u8;
        }
        let list = start(sectors[0]);
        for (k, s) in sectors[1..].iter().enumerate() {
            disk[list + 12 + 2 * k] = (s / 16) as u8;
            disk[list + 13 + 2 * k] = (s % 16) as u8;
            disk[start(*s)..start(*s) + 256].copy_from_slice(&random.bytes(256));
        }
        let first = start(sectors[1]);
        let length = (256 * size - 4) as u16;
        disk[first + 2..first + 4].copy_from_slice(&length.to_le_bytes());
        let entry = page + 11 + 35 * (count % 7);
        disk[entry] = (sectors[0] / 16) as u8;
        disk[entry + 1] = (sectors[0] % 16) as u8;
        disk[entry + 2] = 4;
        disk[entry + 3..entry + 33].fill(0xA0);
        disk[entry + 3] = 0xC1 + (count % 26) as u8;
        disk[entry + 4] = 0xC1 + (count / 26) as u8;
        disk[entry + 33] = (size + 1) as u8;
    }
    disk
}

// Three quarters of the files, so that the largest file can be saved: what they do not hold is free, and the catalog has 15 pages.
fn roomy(random: &mut Random, (files, size): Kind) -> Vec<u8> {
    let files = (files * 3 / 4).max(1);
    let mut disk = disk_of(random, (files, size));
    let vtoc = 256 * 17 * 16;
    disk[vtoc + 48] = 17;
    disk[vtoc + 49] = 1;
    let sectors = (16..560usize).filter(|s| s / 16 != 17);
    for s in sectors.skip(files as usize * (size + 1)) {
        let byte = if s % 16 < 8 { 1 } else { 0 };
        disk[vtoc + 56 + 4 * (s / 16) + byte] |= 1 << (s % 8);
    }
    for page in 2..16 {
        disk[vtoc + 256 * page + 1] = 17;
        disk[vtoc + 256 * page + 2] = page as u8 - 1;
    }
    disk
}

// What both work on, and the space that ours fills.
struct Work<'c> {
    config: &'c Config,
    disk: Vec<u8>,
    files: u64,
    stream: Vec<u8>,
    // The stream with the end that image-rider wants.
    ended: Vec<u8>,
    // A disk of 13 sectors a track, and its stream.
    disk_13: Vec<u8>,
    stream_13: Vec<u8>,
    archive: Vec<u8>,
    sector: Vec<u8>,
    // A disk with room for what is saved, the same with it, and a copy to work on.
    roomy: Vec<u8>,
    saved: Vec<u8>,
    copy: Vec<u8>,
    data: Vec<u8>,
    out: Vec<u8>,
    length: u64,
    fields: [u64; 7],
    // Lengths to save.
    plan: [u64; 64],
}

impl<'c> Work<'c> {
    fn new(config: &'c Config, kind: Kind) -> Work<'c> {
        let random = &mut Random::new(1);
        let mut work = Work {
            config,
            disk: disk_of(random, kind),
            files: kind.0,
            stream: Vec::new(),
            ended: Vec::new(),
            disk_13: Vec::new(),
            stream_13: Vec::new(),
            archive: Vec::new(),
            sector: random.bytes(256),
            roomy: Vec::new(),
            saved: Vec::new(),
            copy: vec![0; SIZE],
            data: Vec::new(),
            out: vec![0; 1 << 20],
            length: 0,
            fields: [0; 7],
            plan: [0; 64],
        };
        work.nibblize();
        work.stream = work.out[..work.length as usize].to_vec();
        work.ended = [&work.stream[..], &tail()].concat();
        work.disk_13 = random.bytes(SIZE_13);
        work.stream_13 = thirteen::stream(&work.disk_13, 254);
        work.archive_write();
        work.archive = work.out[..work.length as usize].to_vec();
        work.roomy = roomy(random, kind);
        work.data = random.bytes(SAVED);
        work.copy_roomy();
        work.save();
        work.saved = work.copy.clone();
        work
    }

    fn survey(&mut self) {
        let (d, n) = (self.disk.as_ptr(), self.disk.len());
        assert_eq!(
            unsafe { raw::dos33_survey(d, n, self.fields.as_mut_ptr(), 7) },
            0
        );
        assert_eq!(self.fields[1], self.files);
    }

    fn holders(&mut self) {
        let (d, n) = (self.disk.as_ptr(), self.disk.len());
        assert_eq!(
            unsafe { raw::dos33_holders(d, n, self.fields.as_mut_ptr(), 5) },
            0
        );
        // The disk is clean.
        assert_eq!(self.fields[4], 1);
    }

    fn survey_roomy(&mut self) {
        let (d, n) = (self.roomy.as_ptr(), self.roomy.len());
        assert_eq!(
            unsafe { raw::dos33_survey(d, n, self.fields.as_mut_ptr(), 7) },
            0
        );
    }

    fn holders_roomy(&mut self) {
        let (d, n) = (self.roomy.as_ptr(), self.roomy.len());
        assert_eq!(
            unsafe { raw::dos33_holders(d, n, self.fields.as_mut_ptr(), 5) },
            0
        );
    }

    fn copy_roomy(&mut self) {
        black_box(&mut self.copy).copy_from_slice(black_box(&self.roomy));
    }

    fn copy_saved(&mut self) {
        black_box(&mut self.copy).copy_from_slice(black_box(&self.saved));
    }

    // To the copy, which has the room.
    fn save(&mut self) {
        let (d, n) = (self.copy.as_mut_ptr(), self.copy.len());
        let (a, size) = (self.data.as_ptr(), self.data.len());
        assert_eq!(
            unsafe { raw::dos33_save(d, n, NAME.as_ptr(), NAME.len(), 0x2000, a, size) },
            0
        );
    }

    // The same by a side, with room in its limit for that and no more than a disk has.
    fn save_for(&mut self) {
        let (d, n) = (self.copy.as_mut_ptr(), self.copy.len());
        let (a, size) = (self.data.as_ptr(), self.data.len());
        let (name, length) = (OUR_NAME.as_ptr(), OUR_NAME.len());
        assert_eq!(
            unsafe { raw::dos33_save_for(d, n, 0, 560, name, length, 0x2000, a, size) },
            0
        );
    }

    // On the disk with room: how many of them go on.
    fn forecast(&mut self) -> u64 {
        let (d, n) = (self.roomy.as_ptr(), self.roomy.len());
        let fields = &mut [0; 67];
        assert_eq!(
            unsafe { raw::dos33_forecast(d, n, self.plan.as_ptr(), 64, fields.as_mut_ptr(), 67) },
            0
        );
        black_box(fields)[2]
    }

    // From the copy, which has the file.
    fn delete(&mut self) {
        let (d, n) = (self.copy.as_mut_ptr(), self.copy.len());
        assert_eq!(
            unsafe { raw::dos33_delete(d, n, NAME.as_ptr(), NAME.len()) },
            0
        );
    }

    fn catalog(&mut self) {
        let (d, n) = (self.disk.as_ptr(), self.disk.len());
        let (o, size) = (self.out.as_mut_ptr(), self.out.len());
        assert_eq!(
            unsafe { raw::dos33_catalog(d, n, o, size, &mut self.length) },
            0
        );
        assert_eq!(self.length, 37 * self.files);
    }

    fn file(&mut self, k: u64) {
        let (d, n) = (self.disk.as_ptr(), self.disk.len());
        let (o, size) = (self.out.as_mut_ptr(), self.out.len());
        assert_eq!(
            unsafe { raw::dos33_file(d, n, k, o, size, &mut self.length) },
            0
        );
        assert!(self.length > 1500);
    }

    fn all_files(&mut self) {
        self.catalog();
        for k in 0..self.files {
            self.file(k);
        }
    }

    fn files(&mut self) {
        let files = Disk::flat(black_box(&self.disk)).files();
        assert_eq!(black_box(files).map(|f| f.len() as u64), Ok(self.files));
    }

    fn archive_write(&mut self) {
        let (d, n) = (self.disk.as_ptr(), self.disk.len());
        let (o, size) = (self.out.as_mut_ptr(), self.out.len());
        assert_eq!(
            unsafe { raw::dos33_archive_write(d, n, o, size, &mut self.length) },
            0
        );
    }

    fn archive_check(&mut self) {
        let (d, n) = (self.disk.as_ptr(), self.disk.len());
        let (a, size) = (self.archive.as_ptr(), self.archive.len());
        assert_eq!(unsafe { raw::dos33_archive_check(d, n, a, size) }, 0);
    }

    fn archive_open(&mut self) {
        let (a, size) = (self.archive.as_ptr(), self.archive.len());
        assert_eq!(
            unsafe { raw::dos33_archive_open(a, size, self.fields.as_mut_ptr(), 3) },
            0
        );
    }

    fn encode_sector(&mut self) {
        let (o, size) = (self.out.as_mut_ptr(), self.out.len());
        let s = black_box(self.sector.as_ptr());
        assert_eq!(
            unsafe { raw::dos33_encode_sector(s, 256, o, size, &mut self.length) },
            0
        );
    }

    fn nibblize(&mut self) {
        let (d, n) = (self.disk.as_ptr(), self.disk.len());
        let (o, size) = (self.out.as_mut_ptr(), self.out.len());
        assert_eq!(
            unsafe { raw::dos33_nibblize(d, n, o, size, &mut self.length) },
            0
        );
    }

    fn denibblize(&mut self) {
        let (s, n) = (self.stream.as_ptr(), self.stream.len());
        let (o, size) = (self.out.as_mut_ptr(), self.out.len());
        assert_eq!(
            unsafe { raw::dos33_denibblize(s, n, o, size, &mut self.length) },
            0
        );
    }

    fn denibblize_13(&mut self) {
        let (s, n) = (self.stream_13.as_ptr(), self.stream_13.len());
        let (o, size) = (self.out.as_mut_ptr(), self.out.len());
        assert_eq!(
            unsafe { raw::dos33_denibblize_13(s, n, o, size, &mut self.length) },
            0
        );
    }

    fn rust_load(&mut self) {
        let guess = AppleDiskGuess::new(Encoding::Plain, Format::DOS33(143_360), &self.disk);
        assert!(black_box(apple_disk_parser(black_box(&guess), self.config)).is_ok());
    }

    fn rust_stream(&mut self) {
        assert!(black_box(parse_nib_disk(self.config)(black_box(&self.ended))).is_ok());
    }

    fn rust_sector(&mut self) {
        black_box(build_nibble_sector(black_box(&self.sector)));
    }
}

type Thing = (&'static str, fn(&mut Work));

const THINGS: [Thing; 25] = [
    ("survey", |w| w.survey()),
    ("holders", |w| w.holders()),
    ("survey-roomy", |w| w.survey_roomy()),
    ("holders-roomy", |w| w.holders_roomy()),
    ("copy", |w| w.copy_roomy()),
    ("copy-and-save", |w| {
        w.copy_roomy();
        w.save();
    }),
    ("copy-and-save-for", |w| {
        w.copy_roomy();
        w.save_for();
    }),
    ("copy-and-delete", |w| {
        w.copy_saved();
        w.delete();
    }),
    ("forecast-250", |w| {
        w.plan = [250; 64];
        w.forecast();
    }),
    ("forecast-1000", |w| {
        w.plan = [1_000; 64];
        w.forecast();
    }),
    ("forecast-32768", |w| {
        w.plan = [32_768; 64];
        w.forecast();
    }),
    ("catalog", |w| w.catalog()),
    ("file-0", |w| w.file(0)),
    ("catalog-and-files", |w| w.all_files()),
    ("files-in-one-go", |w| w.files()),
    ("archive-write", |w| w.archive_write()),
    ("archive-check", |w| w.archive_check()),
    ("archive-open", |w| w.archive_open()),
    ("encode-sector", |w| w.encode_sector()),
    ("nibblize", |w| w.nibblize()),
    ("denibblize", |w| w.denibblize()),
    ("denibblize-13", |w| w.denibblize_13()),
    ("apple_disk_parser", |w| w.rust_load()),
    ("parse_nib_disk", |w| w.rust_stream()),
    ("build_nibble_sector", |w| w.rust_sector()),
];

// One thing so many times, on the full disk of 75, 25 or 8 files or on that of 1. Without words it prints what there is.
pub fn count(words: &[String], config: &Config) -> Result<(), String> {
    let [what, times, files] = words else {
        THINGS.iter().for_each(|(name, _)| println!("{name}"));
        return Ok(());
    };
    let thing = THINGS.iter().find(|(name, _)| name == what);
    let (_, thing) = thing.ok_or(format!("no such thing: {what}"))?;
    let number = |text: &String| text.parse::<u64>().map_err(|e| format!("{text}: {e}"));
    let (times, files) = (number(times)?, number(files)?);
    let kind = FULL.iter().chain([&SMALL]).find(|kind| kind.0 == files);
    let mut work = Work::new(config, *kind.ok_or(format!("no disk of {files} files"))?);
    for _ in 0..times {
        thing(&mut work);
    }
    Ok(())
}

// The least time of each of the two, in nanoseconds. They take turns, so that both meet the machine as it is.
fn least<W>(work: &mut W, runs: usize, ours: fn(&mut W), theirs: fn(&mut W)) -> (f64, f64) {
    let mut best = [f64::MAX; 2];
    for _ in 0..40 {
        for (best, thing) in best.iter_mut().zip([ours, theirs]) {
            for _ in 0..runs {
                let begin = Instant::now();
                thing(work);
                *best = best.min(begin.elapsed().as_nanos() as f64);
            }
        }
    }
    (best[0], best[1])
}

fn row(what: &str, ours: f64, other: &str, theirs: f64) {
    let ratio = if other == "image-rider" {
        format!("{other} / ours {:6.2}", theirs / ours)
    } else {
        format!("ours / {other} {:6.2}", ours / theirs)
    };
    println!("{what:36} {ours:12.0} ns   {other:12} {theirs:12.0} ns   {ratio}");
}

fn beside_rust(work: &mut Work, what: &str, ours: fn(&mut Work), theirs: fn(&mut Work)) {
    let (ours, theirs) = least(work, 10, ours, theirs);
    row(what, ours, "image-rider", theirs);
}

// Flat reading beside the Rust's load, which is the catalog and the bytes of every file.
fn reading(work: &mut Work) {
    beside_rust(
        work,
        "catalog, and every file fetched",
        |w| w.all_files(),
        |w| w.rust_load(),
    );
    beside_rust(
        work,
        "every file in one go (`Disk::files`)",
        |w| w.files(),
        |w| w.rust_load(),
    );
    beside_rust(
        work,
        "every file, as an archive",
        |w| w.archive_write(),
        |w| w.rust_load(),
    );
    beside_rust(work, "one file fetched", |w| w.file(0), |w| w.rust_load());
    beside_rust(
        work,
        "survey (all lists followed)",
        |w| w.survey(),
        |w| w.rust_load(),
    );
}

// The holders of all sectors, which image-rider does not tell, beside our own survey: both follow every list. Twenty at a time.
fn holders(work: &mut Work) {
    let (holders, survey) = least(
        work,
        20,
        |w| (0..20).for_each(|_| w.holders()),
        |w| (0..20).for_each(|_| w.survey()),
    );
    row("holders", holders / 20.0, "survey", survey / 20.0);
}

// The least time of one thing, with another done before it that is not counted.
fn alone(work: &mut Work, before: fn(&mut Work), thing: fn(&mut Work)) -> f64 {
    let mut best = f64::MAX;
    for _ in 0..800 {
        before(work);
        let begin = Instant::now();
        thing(work);
        best = best.min(begin.elapsed().as_nanos() as f64);
    }
    best
}

// A file of 32,768 bytes saved to a copy of the disk with room, also by a side, and deleted from it. The goal: four surveys of that disk, and the copy.
fn saving(work: &mut Work) {
    let (survey, holders) = least(
        work,
        20,
        |w| (0..20).for_each(|_| w.survey_roomy()),
        |w| (0..20).for_each(|_| w.holders_roomy()),
    );
    let (survey, holders) = (survey / 20.0, holders / 20.0);
    let copy = alone(work, |w| w.copy_saved(), |w| w.copy_roomy());
    let goal = 4.0 * survey + copy;
    println!("  with room: survey {survey:.0} ns, holders {holders:.0} ns, copy {copy:.0} ns");
    let save = alone(work, |w| w.copy_roomy(), |w| w.save());
    row("32,768 bytes saved", save, "goal", goal);
    let save_for = alone(work, |w| w.copy_roomy(), |w| w.save_for());
    row("the same by a side", save_for, "saved", save);
    let delete = alone(work, |w| w.copy_saved(), |w| w.delete());
    row("the same deleted", delete, "survey", survey);
}

// What 64 saves will need, told on the disk with room. The goal: 70 surveys of that disk.
fn forecasts(work: &mut Work) {
    for (what, length) in PLANS {
        work.plan = [length; 64];
        println!("  {} of them go on", work.forecast());
        let (forecast, survey) = least(
            work,
            20,
            |w| {
                w.forecast();
            },
            |w| (0..70).for_each(|_| w.survey_roomy()),
        );
        row(what, forecast, "70 surveys", survey);
    }
}

// Archives beside a copy of as many bytes.
fn archives(work: &mut Work) {
    let things: [Thing; 3] = [
        ("archive written", |w| w.archive_write()),
        ("archive checked", |w| w.archive_check()),
        ("archive opened", |w| w.archive_open()),
    ];
    for (what, thing) in things {
        let (ours, memcpy) = least(work, 50, thing, |w| {
            let n = w.archive.len();
            black_box(&mut w.out)[..n].copy_from_slice(black_box(&w.archive));
        });
        row(what, ours, "memcpy", memcpy);
    }
}

fn nibbles(work: &mut Work) {
    work.denibblize();
    assert_eq!(work.out[..SIZE], work.disk[..]);
    beside_rust(
        work,
        "a full stream to a flat disk",
        |w| w.denibblize(),
        |w| w.rust_stream(),
    );
    // image-rider writes no stream: its encoding of as many sectors stands beside ours.
    beside_rust(
        work,
        "a flat disk to a full stream",
        |w| w.nibblize(),
        |w| (0..560).for_each(|_| w.rust_sector()),
    );
    // Nothing stands beside it but our own reading of 16 sectors a track.
    work.denibblize_13();
    assert_eq!(work.out[..SIZE_13], work.disk_13[..]);
    let (of_13, of_16) = least(work, 10, |w| w.denibblize_13(), |w| w.denibblize());
    println!(
        "{:36} {of_13:12.0} ns   a sector {:5.0} ns, of 16 sectors a track {:5.0} ns",
        "a full stream of 13 sectors a track",
        of_13 / 455.0,
        of_16 / 560.0
    );
    let (ours, theirs) = least(
        work,
        20,
        |w| (0..100).for_each(|_| w.encode_sector()),
        |w| (0..100).for_each(|_| w.rust_sector()),
    );
    row(
        "a sector encoded",
        ours / 100.0,
        "image-rider",
        theirs / 100.0,
    );
}

pub fn run(config: &Config) {
    for kind in FULL {
        let work = &mut Work::new(config, kind);
        work.survey();
        println!(
            "a full disk: {} files of {} sectors, {} archive blocks",
            kind.0, kind.1, work.fields[5]
        );
        reading(work);
        holders(work);
        saving(work);
        forecasts(work);
        archives(work);
    }
    println!("an almost empty disk: one file of {} sectors", SMALL.1);
    let work = &mut Work::new(config, SMALL);
    holders(work);
    saving(work);
    forecasts(work);
    println!("nibbles, on the disk of {} sectors a file", FULL[0].1);
    nibbles(&mut Work::new(config, FULL[0]));
}
