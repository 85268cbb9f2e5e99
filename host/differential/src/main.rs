// Compares crates/host with image-rider on generated inputs: cargo run --release -- [SEED] [COUNT]
// Times and ratios: cargo run --release -- --bench
// One thing many times, for a counter of instructions: cargo run --release -- --count WHAT TIMES FILES
// image-rider's answers to a script: cargo run --release -- --record < SCRIPT
// One flat disk or stream in a file: cargo run --release -- --load FILE, or --stream FILE
mod bench;
mod disks;
mod fixed;
mod load;
mod ours;
mod panics;
mod random;
mod record;
mod records;
mod report;
mod shims;
mod streams;
mod thirteen;
mod walk;
mod worker;

include!(concat!(env!("OUT_DIR"), "/modules.rs"));

use crate::config::Configuration;
use crate::walk::LeftOut;

// image-rider's; its set-up is not published.
pub fn init() {}

fn main() {
    let arguments: Vec<String> = std::env::args().skip(1).collect();
    let config = crate::config::Config::load(::config::Config::default()).unwrap();
    panics::prepare();
    if arguments.first().is_some_and(|a| a == worker::ARGUMENT) {
        worker::serve(&config);
        return;
    }

    if arguments.first().is_some_and(|a| a == "--bench") {
        bench::run(&config);
        return;
    }

    if arguments.first().is_some_and(|a| a == "--count") {
        if let Err(why) = bench::count(&arguments[1..], &config) {
            eprintln!("{why}");
            std::process::exit(2);
        }
        return;
    }

    if arguments.first().is_some_and(|a| a == "--record") {
        record::run(&config);
        return;
    }

    let mut report = report::Report::default();
    // One input again: a flat disk or a stream.
    if let [what, file] = &arguments[..] {
        if what == "--load" || what == "--stream" {
            let bytes = std::fs::read(file).unwrap_or_else(|e| {
                eprintln!("{file}: {e}");
                std::process::exit(2)
            });
            if what == "--load" && bytes.len() == disks::SIZE_13 {
                eprintln!("{file}: a disk of 13 sectors a track, which image-rider does not have");
                std::process::exit(2);
            }
            report.case = file.clone();
            let random = &mut random::Random::new(1);
            let mut ours = ours::Ours::new(1);
            if what == "--load" {
                let mut worker = worker::Worker::start();
                let left_out = load::compare(&bytes, random, &mut worker, &mut ours, &mut report);
                worker.stop();
                if let Some(why) = left_out {
                    eprintln!("{file}: not compared: {}", why.text());
                    std::process::exit(2);
                }
            } else {
                streams::compare(&bytes, random, &config, &mut ours, &mut report);
            }
            report.print();
            println!("no unexplained difference");
            return;
        }
    }

    let number = |k: usize, default: u64| match arguments.get(k) {
        None => default,
        Some(text) => text.parse().unwrap_or_else(|_| {
            eprintln!("not a number: {text}");
            std::process::exit(2)
        }),
    };
    let seed = number(0, 1);
    let count = number(1, 1000);
    println!("seed {seed}, count {count}");
    let mut ours = ours::Ours::new(seed);
    let mut worker = worker::Worker::start();
    report.case = "a small input".to_string();
    fixed::run(&mut worker, &config, &mut ours, &mut report);
    let reasons = [LeftOut::MovedCatalog, LeftOut::FullList];
    let before = reasons.map(|why| report.number_left_out(why));
    for case in 0..count {
        let random = &mut random::Random::new(seed.wrapping_mul(0x1_0000_0001).wrapping_add(case));
        report.case = format!("seed {seed}, case {case}");
        records::encoder(random, &config, &mut ours, &mut report);
        records::entry_record(random, &mut ours, &mut report);
        records::catalog_page(random, &mut ours, &mut report);
        records::binary_file(random, &mut ours, &mut report);
        records::prologue(random, &mut ours, &mut report);
        records::format(random, &mut ours, &mut report);
        load::load(random, &mut worker, &mut ours, &mut report);
        streams::sectors(random, &config, &mut ours, &mut report);
        if case % 50 == 0 {
            streams::written(random, &config, &mut ours, &mut report);
        }
    }
    worker.stop();
    report.print();
    // Some of the generated disks are left out for each reason, and not most of them.
    let after = reasons.map(|why| report.number_left_out(why));
    let left_out = [after[0] - before[0], after[1] - before[1]];
    if count >= 100 && (left_out.contains(&0) || left_out[0] + left_out[1] > count / 2) {
        println!("{left_out:?} of {count} generated disks left out: that cannot be");
        std::process::exit(1);
    }
    println!("no unexplained difference");
}
