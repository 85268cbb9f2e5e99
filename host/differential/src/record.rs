// image-rider's answers to a script, for crates/replay and crates/replay_parts, which ask our libraries the same. Nothing of ours is called here.
// Standard input is the script, whose steps are in the heads of these programs and of crates/recorded/src/lib.rt; the answers go to standard output.
// A step that document 01 does not name under "Compared", or an answer that has no number there, ends it: nothing of that kind is recorded.
use std::collections::HashMap;
use std::fmt::Write;
use std::io::Read;
use std::time::Duration;

use crate::config::Config;
use crate::disk_format::apple::catalog::{Catalog, FileEntry, FullFile};
use crate::disk_format::apple::disk::format_from_data;
use crate::disk_format::apple::nibble::{build_nibble_sector, recognize_prologue};
use crate::disks::SIZE;
use crate::panics::caught;
use crate::records::{kind_of, plain};
use crate::serialize::Serializer;
use crate::streams;
use crate::walk;
use crate::worker::{Load, Theirs, Worker};

const LIMIT: Duration = Duration::from_secs(60);

pub fn run(config: &Config) {
    let mut script = String::new();
    if let Err(e) = std::io::stdin().read_to_string(&mut script) {
        eprintln!("standard input: {e}");
        std::process::exit(2);
    }
    let mut worker = Worker::start();
    let mut input = Vec::new();
    let mut text = String::new();
    for (k, line) in script.lines().enumerate() {
        if let Err(why) = step(line, &mut input, &mut worker, config, &mut text) {
            eprintln!("line {}: {line}: {why}", k + 1);
            std::process::exit(1);
        }
    }
    worker.stop();
    print!("{text}");
}

// A line's six digits, as a number and as bytes, and the bytes behind them.
struct Words {
    place: usize,
    key: [u8; 3],
    bytes: Vec<u8>,
}

fn words(line: &str) -> Result<Words, String> {
    let mut words = line.split(' ').skip(1);
    let digits = words.next().unwrap_or("");
    if digits.len() != 6 {
        return Err("six digits are wanted".into());
    }
    let place = usize::from_str_radix(digits, 16).map_err(|e| e.to_string())?;
    let mut bytes = Vec::new();
    for word in words {
        if word.len() != 2 {
            return Err(format!("not a byte: {word}"));
        }
        bytes.push(u8::from_str_radix(word, 16).map_err(|e| e.to_string())?);
    }
    if bytes.len() > 64 {
        return Err("more than 64 bytes".into());
    }
    let key = [(place >> 16) as u8, (place >> 8) as u8, place as u8];
    Ok(Words { place, key, bytes })
}

fn put(input: &mut [u8], at: usize, bytes: &[u8]) -> Result<(), String> {
    let to = input.get_mut(at..at + bytes.len());
    to.ok_or("outside the input")?.copy_from_slice(bytes);
    Ok(())
}

fn step(
    line: &str,
    input: &mut Vec<u8>,
    worker: &mut Worker,
    config: &Config,
    text: &mut String,
) -> Result<(), String> {
    let command = line.chars().next().unwrap_or('#');
    if command == '#' {
        return Ok(());
    }
    if command == '=' {
        text.push_str(line);
        text.push('\n');
        return Ok(());
    }
    let w = words(line)?;
    match (command, &w.bytes[..]) {
        ('N', [v]) if w.place <= SIZE => *input = vec![*v; w.place],
        ('P', bytes) => put(input, w.place, bytes)?,
        ('F', [high, low, v]) => {
            let n = 256 * *high as usize + *low as usize;
            put(input, w.place, &vec![*v; n])?
        }
        ('U', [first]) => {
            let ramp: Vec<u8> = (0..=255u8).map(|k| first.wrapping_add(k)).collect();
            put(input, w.place, &ramp)?
        }
        ('L', []) => load(input, worker, text)?,
        ('K', []) => sector(input, w.key, config, text)?,
        ('E', []) => {
            let from = input.get(w.place..w.place + 256);
            let nibbles = build_nibble_sector(from.ok_or("not 256 bytes")?).data;
            *text += "encoded: number 0";
            content(&nibbles, text);
            text.push('\n');
        }
        ('D', [lock, low, high, name @ ..]) => record(w.key, *lock, [*low, *high], name, text)?,
        ('G', []) => page(input, text)?,
        ('B', []) => binary(input, text)?,
        ('M', []) => {
            let found = caught(|| recognize_prologue(input))?;
            writeln!(text, "prologue {}", found.unwrap_or(0)).unwrap();
        }
        ('O', []) => {
            let (number, answer) = match format_from_data(input) {
                Err(_) => (17, "not DOS 3.3"),
                Ok(None) => (0, "not DOS 3.3"),
                Ok(Some(_)) => (0, "DOS 3.3"),
            };
            writeln!(text, "format: number {number}, {answer}").unwrap();
        }
        _ => return Err("no such step".into()),
    }
    Ok(())
}

fn hex(bytes: &[u8], text: &mut String) {
    for b in bytes {
        write!(text, " {b:02X}").unwrap();
    }
}

fn adler(bytes: &[u8]) -> u64 {
    let (mut a, mut b) = (1, 0);
    for byte in bytes {
        a = (a + *byte as u64) % 65_521;
        b = (b + a) % 65_521;
    }
    65_536 * b + a
}

// Up to 512 bytes themselves, and of more their sum.
fn content(bytes: &[u8], text: &mut String) {
    write!(text, ", length {}", bytes.len()).unwrap();
    if bytes.len() <= 512 {
        *text += ", bytes";
        hex(bytes, text);
    } else {
        write!(text, ", sum {}", adler(bytes)).unwrap();
    }
}

fn answer_line(answer: Result<&[u8], u8>, text: &mut String) {
    write!(text, "  number {}", answer.err().unwrap_or(0)).unwrap();
    if let Ok(bytes) = answer {
        content(bytes, text);
    }
    text.push('\n');
}

fn load(disk: &[u8], worker: &mut Worker, text: &mut String) -> Result<(), String> {
    if disk.len() != SIZE {
        return Err("not compared at this size".into());
    }
    if let Some(why) = walk::left_out(disk) {
        return Err(why.text());
    }
    let number = match worker.load(disk, LIMIT) {
        Theirs::Late => return Err("image-rider does not return".into()),
        Theirs::Loaded(load) => {
            *text += "load 0\n";
            return loaded(&load, text);
        }
        Theirs::Failed(_) => 2,
        Theirs::Panicked(why) if why.contains("index out of bounds") => 3,
        Theirs::Panicked(why) if why.contains("Option::unwrap()") => 5,
        Theirs::Panicked(why) if why.contains("Utf8Error") => 6,
        Theirs::Panicked(why) => return Err(format!("a panic that has no number: {why}")),
    };
    writeln!(text, "load {number}").unwrap();
    Ok(())
}

fn loaded(load: &Load, text: &mut String) -> Result<(), String> {
    if ![0, 1, 255].contains(&load.vtoc[6]) {
        return Err("the direction is neither 1, -1 nor 0".into());
    }
    *text += "vtoc";
    for n in &load.vtoc {
        write!(text, " {n}").unwrap();
    }
    text.push('\n');
    let name = |e: &[u8]| e[5..5 + e[4] as usize].to_vec();
    for e in load.entries.chunks(37) {
        let count = u16::from_le_bytes([e[35], e[36]]);
        write!(
            text,
            "entry {} {} type {} locked {} sectors {count} name",
            e[0], e[1], e[2], e[3]
        )
        .unwrap();
        hex(&name(e), text);
        text.push('\n');
    }
    for e in load.entries.chunks(37) {
        let name = name(e);
        let file = load.names.iter().find(|(n, _)| *n == name);
        let (_, data) = file.ok_or("an entry whose name has no bytes")?;
        *text += "file";
        hex(&name, text);
        text.push('\n');
        answer_line(Ok(data), text);
    }
    Ok(())
}

fn sector(stream: &[u8], key: [u8; 3], config: &Config, text: &mut String) -> Result<(), String> {
    *text += "sector";
    hex(&key, text);
    text.push('\n');
    match streams::image_rider(stream, config)? {
        None => return Err("image-rider does not return for this stream".into()),
        Some(Err(number)) => answer_line(Err(number), text),
        Some(Ok(all)) => match all.get(&(key[0], key[1], key[2])) {
            Some(data) => answer_line(Ok(data), text),
            None => answer_line(Err(10), text),
        },
    }
    Ok(())
}

fn record(
    place: [u8; 3],
    lock: u8,
    count: [u8; 2],
    name: &[u8],
    text: &mut String,
) -> Result<(), String> {
    if !plain(name) {
        return Err("not a plain name".into());
    }
    let entry = FileEntry {
        track_of_first_track_sector_list_sector: place[0],
        sector_of_first_track_sector_list_sector: place[1],
        file_type: kind_of(place[2]),
        locked: lock != 0,
        file_name: name,
        file_length_in_sectors: u16::from_le_bytes(count),
    };
    *text += "record\n";
    let bytes = caught(|| entry.as_vec().ok())?;
    answer_line(bytes.as_deref().ok_or(14), text);
    Ok(())
}

fn page(input: &[u8], text: &mut String) -> Result<(), String> {
    let forms = input.get(11..).ok_or("no header of 11 bytes")?;
    let mut entries = Vec::new();
    for e in forms.chunks_exact(37) {
        let name = e[5..].get(..e[4] as usize).unwrap_or(&[]);
        if name.is_empty() || name.len() > 30 || !plain(name) {
            return Err("not a plain name of 1 to 30 bytes".into());
        }
        entries.push(FileEntry {
            track_of_first_track_sector_list_sector: e[0],
            sector_of_first_track_sector_list_sector: e[1],
            file_type: kind_of(e[2]),
            locked: e[3] != 0,
            file_name: name,
            file_length_in_sectors: u16::from_le_bytes([e[35], e[36]]),
        });
    }
    let many = entries.len() > 7;
    let page = Catalog {
        reserved: input[0],
        track_number_of_next_sector: input[1],
        sector_number_of_next_sector: input[2],
        reserved_2: &input[3..11],
        file_entries: entries,
        catalog_by_filename: HashMap::new(),
    };
    *text += "page\n";
    match caught(|| page.as_vec().ok()) {
        Ok(Some(bytes)) => answer_line(Ok(&bytes), text),
        _ if many => answer_line(Err(16), text),
        _ => return Err("an error that has no number".into()),
    }
    Ok(())
}

fn binary(input: &[u8], text: &mut String) -> Result<(), String> {
    let data = input.get(5..).ok_or("no type, address and length")?;
    let file = FullFile {
        file_entry: FileEntry::new(1, 1, kind_of(input[0]), false, "A", 2),
        data: data.to_vec(),
        address: u16::from_le_bytes([input[1], input[2]]),
        length: u16::from_le_bytes([input[3], input[4]]),
    };
    *text += "binary\n";
    let bytes = caught(|| file.as_vec().ok())?;
    answer_line(bytes.as_deref().ok_or(15), text);
    Ok(())
}
