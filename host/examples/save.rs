//! Files saved on a flat disk of 143,360 bytes: `cargo run --example save -- DISK WORD..`.
//! Each word names a file, which is saved under its own name in capital letters, to be loaded at 2000h; a word `-NAME` deletes NAME from the disk.
//! Where DISK is not there, an empty one is made. It is written back where every word went well, and then its catalog is printed.

use std::io::ErrorKind;
use std::path::Path;
use std::process::ExitCode;

use dos33::{Disk, DiskMut};

// An empty disk of volume 254: pages from 17/15 down to 17/1, tracks 0 and 17 in use.
fn formatted() -> Vec<u8> {
    let mut bytes = vec![0; dos33::DISK_SIZE];
    let vtoc = 17 * 4096;
    bytes[vtoc + 1..][..3].copy_from_slice(&[17, 15, 3]);
    bytes[vtoc + 6] = 254;
    bytes[vtoc + 39] = dos33::LIST_PAIRS as u8;
    bytes[vtoc + 48..][..2].copy_from_slice(&[17, 1]);
    bytes[vtoc + 52..][..4].copy_from_slice(&[35, 16, 0, 1]);
    for track in (1..dos33::TRACKS).filter(|track| *track != 17) {
        bytes[vtoc + 56 + 4 * track..][..2].fill(0xFF);
    }
    for page in 2..16 {
        bytes[vtoc + 256 * page + 1..][..2].copy_from_slice(&[17, page as u8 - 1]);
    }
    bytes
}

fn amend(disk: &mut DiskMut, word: &str) -> Result<(), String> {
    if let Some(name) = word.strip_prefix('-') {
        return disk.delete(name).map_err(|why| format!("{name}: {why}"));
    }
    let data = std::fs::read(word).map_err(|e| format!("{word}: {e}"))?;
    let name = Path::new(word).file_name().unwrap_or_default();
    let name = name.to_string_lossy().to_ascii_uppercase();
    let saved = disk.save(&name, 0x2000, &data);
    saved.map_err(|why| format!("{name}: {why}"))
}

fn run(file: &str, words: &[String]) -> Result<(), String> {
    let mut bytes = match std::fs::read(file) {
        Err(e) if e.kind() == ErrorKind::NotFound => formatted(),
        other => other.map_err(|e| format!("{file}: {e}"))?,
    };
    let mut disk = DiskMut::flat(&mut bytes);
    for word in words {
        amend(&mut disk, word)?;
    }
    let catalog = Disk::flat(&bytes).catalog();
    for entry in catalog.map_err(|why| format!("{file}: {why}"))? {
        println!("{:03} {}", entry.sectors, entry.name);
    }
    std::fs::write(file, bytes).map_err(|e| format!("{file}: {e}"))
}

fn main() -> ExitCode {
    let words: Vec<String> = std::env::args().skip(1).collect();
    let [file, words @ ..] = &words[..] else {
        eprintln!("save DISK WORD..");
        return ExitCode::from(2);
    };
    match run(file, words) {
        Ok(()) => ExitCode::SUCCESS,
        Err(text) => {
            eprintln!("{text}");
            ExitCode::from(1)
        }
    }
}
