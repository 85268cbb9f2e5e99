// What was compared, how often each number occurred, and the end at a difference.
use std::collections::BTreeMap;

use crate::walk::{LeftOut, RUST_PAIRS, RUST_TRACK};

#[derive(Default)]
pub struct Report {
    // The case that is run, to say where a difference was met.
    pub case: String,
    compared: BTreeMap<&'static str, u64>,
    numbers: BTreeMap<(&'static str, u8), u64>,
    explained: BTreeMap<&'static str, u64>,
    left_out: BTreeMap<LeftOut, u64>,
}

impl Report {
    pub fn compared(&mut self, what: &'static str) {
        *self.compared.entry(what).or_default() += 1;
    }

    pub fn number(&mut self, function: &'static str, number: u8) {
        *self.numbers.entry((function, number)).or_default() += 1;
    }

    pub fn explained(&mut self, what: &'static str) {
        *self.explained.entry(what).or_default() += 1;
    }

    // A flat disk for which image-rider is no reference.
    pub fn left_out(&mut self, why: LeftOut) {
        *self.left_out.entry(why).or_default() += 1;
    }

    pub fn number_left_out(&self, why: LeftOut) -> u64 {
        self.left_out.get(&why).copied().unwrap_or(0)
    }

    // Saves the input and ends.
    pub fn difference(&self, what: &str, input: &[u8], text: String) -> ! {
        let file = format!("difference-{what}.bin");
        println!("DIFFERENCE in {what}, {}: {text}", self.case);
        match std::fs::write(&file, input) {
            Ok(()) => println!("input saved to {file} ({} bytes)", input.len()),
            Err(e) => println!("input not saved to {file}: {e}"),
        }
        std::process::exit(1);
    }

    pub fn print(&self) {
        println!("Compared:");
        for (what, n) in &self.compared {
            println!("  {n:>9}  {what}");
        }
        println!("Left out:");
        println!(
            "  {:>9}  flat disks whose VTOC has a catalog track other than {RUST_TRACK}, where image-rider reads",
            self.number_left_out(LeftOut::MovedCatalog)
        );
        println!(
            "  {:>9}  flat disks with a list of more than the {RUST_PAIRS} pairs that image-rider reads",
            self.number_left_out(LeftOut::FullList)
        );
        println!("Explained differences met:");
        for (what, n) in &self.explained {
            println!("  {n:>9}  {what}");
        }
        println!("Numbers given by each function (0: accepted):");
        let mut sums: BTreeMap<u8, u64> = BTreeMap::new();
        let mut last = "";
        for ((function, number), n) in &self.numbers {
            if *function != last {
                print!("{}  {function}:", if last.is_empty() { "" } else { "\n" });
                last = function;
            }
            print!(" {number}={n}");
            *sums.entry(*number).or_default() += n;
        }
        println!();
        print!("  together:");
        for (number, n) in &sums {
            print!(" {number}={n}");
        }
        println!();
    }
}
