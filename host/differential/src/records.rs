// The encoder, the record writers and the recognisers.
use std::collections::HashMap;

use crate::config::Config;
use crate::disk_format::apple::catalog::{Catalog, FileEntry, FileType, FullFile};
use crate::disk_format::apple::disk::{self, AppleDiskGuess, Encoding, Format};
use crate::disk_format::apple::nibble;
use crate::disk_format::image::DiskImageGuess;
use crate::ours::Ours;
use crate::panics::caught;
use crate::random::Random;
use crate::report::Report;
use crate::serialize::Serializer;

pub const KINDS: [(u8, FileType); 9] = [
    (0, FileType::Text),
    (1, FileType::IntegerBasic),
    (2, FileType::AppleSoftBasic),
    (4, FileType::Binary),
    (8, FileType::SType),
    (10, FileType::RelocatableObjectModule),
    (20, FileType::AType),
    (40, FileType::BType),
    (41, FileType::Unknown),
];

pub fn kind_of(code: u8) -> FileType {
    for (c, kind) in KINDS {
        if c == code {
            return kind;
        }
    }
    FileType::Unknown
}

fn sector_bytes(random: &mut Random) -> Vec<u8> {
    match random.below(6) {
        0 => vec![random.byte(); 256],
        1 => {
            // Zeros but one byte.
            let mut v = vec![0; 256];
            let at = random.below(256);
            v[at] = random.byte();
            v
        }
        2 => {
            // Zeros but the last.
            let mut v = vec![0; 256];
            v[255] = random.byte();
            v
        }
        3 => (0..256).map(|_| random.byte() & 3).collect(),
        4 => (0..256).map(|_| random.byte() & 0xFC).collect(),
        _ => random.bytes(256),
    }
}

// The 342 nibbles of build_nibble_sector; with our sum the Rust reads the sector back.
pub fn encoder(random: &mut Random, config: &Config, ours: &mut Ours, report: &mut Report) {
    let mut sector = sector_bytes(random);
    match random.below(12) {
        0 => sector.truncate(random.below(256)),
        1 => sector.truncate(255),
        2 => sector.push(random.byte()),
        3 => sector.extend(random.bytes(256)),
        _ => {}
    }
    let mine = ours.encode_sector(&sector, report);
    let theirs = caught(|| nibble::build_nibble_sector(&sector).data);
    match theirs {
        Err(_) => {
            if mine.number == 0 {
                report.difference("encoder", &sector, "the Rust panics, ours accepts".into());
            }
        }
        Ok(_) if sector.len() > 256 => {
            if mine.number != 1 {
                report.difference(
                    "encoder",
                    &sector,
                    format!("over 256 bytes: {}", mine.number),
                );
            }
            report.explained("a sector to encode of more than 256 bytes: accepted, ours 1");
        }
        Ok(nibbles) => {
            if mine.number != 0 || mine.bytes.len() != 343 || nibbles != mine.bytes[..342] {
                report.difference(
                    "encoder",
                    &sector,
                    format!("other nibbles (number {})", mine.number),
                );
            }
            let mut field = vec![0xD5, 0xAA, 0xAD];
            field.extend(&mine.bytes);
            field.extend([0xDE, 0xAA, 0xEB]);
            let back = caught(|| {
                let (_, parsed) = nibble::find_and_parse_data_field(&field).unwrap();
                nibble::transform_data_field(config, &parsed).data
            });
            match back {
                Ok(back) if back == sector => {
                    report.compared("sum nibbles, by reading the sector back")
                }
                _ => report.difference("encoder", &sector, "the Rust does not read it back".into()),
            }
        }
    }
    report.compared("build_nibble_sector");
}

fn name_bytes(random: &mut Random) -> Vec<u8> {
    let n = match random.below(12) {
        0 => 0,
        1 => 1,
        2 => 30,
        3 => 31,
        4 => random.within(31, 255),
        _ => random.within(1, 30),
    };
    let mut name: Vec<u8> = match random.below(3) {
        0 => (0..n).map(|_| random.byte() & 0x7F).collect(),
        1 => (0..n).map(|_| random.within(0x41, 0x5A) as u8).collect(),
        _ => (0..n)
            .map(|_| random.pick(b"AB Z\x00\x20\x7F09."))
            .collect(),
    };
    if n > 0 && random.one_in(8) {
        let at = random.below(n);
        name[at] |= 0x80;
    }
    name
}

pub fn plain(name: &[u8]) -> bool {
    name.iter().all(|b| *b < 0x80)
}

// FileEntry::as_vec.
pub fn entry_record(random: &mut Random, ours: &mut Ours, report: &mut Report) {
    let (track, sector, count) = (random.byte(), random.byte(), random.next() as u16);
    let code = if random.one_in(3) {
        random.byte()
    } else {
        random.pick(&KINDS).0
    };
    let locked = random.pick(&[0, 1, 1, 0x80, 0xFF]);
    let name = name_bytes(random);
    let input = [
        &[track, sector, code, locked],
        &count.to_le_bytes()[..],
        &name,
    ]
    .concat();
    let mine = ours.entry_record(track, sector, code, locked, &name, count, report);
    let entry = FileEntry {
        track_of_first_track_sector_list_sector: track,
        sector_of_first_track_sector_list_sector: sector,
        file_type: kind_of(code),
        locked: locked != 0,
        file_name: &name,
        file_length_in_sectors: count,
    };
    let theirs = caught(|| entry.as_vec().ok()).unwrap_or(None);
    report.compared("FileEntry::as_vec");
    match theirs {
        Some(_) if !plain(&name) => {
            if mine.number != 14 {
                report.difference(
                    "entry_record",
                    &input,
                    format!("80h or more in a name: {}", mine.number),
                );
            }
            report.explained("FileEntry::as_vec, a name byte of 80h or more: wrapped, ours 14");
        }
        Some(bytes) => {
            if mine.number != 0 || mine.bytes != bytes {
                report.difference(
                    "entry_record",
                    &input,
                    format!("{:?} against {:?}", mine, bytes),
                );
            }
        }
        None => {
            if mine.number != 14 {
                report.difference(
                    "entry_record",
                    &input,
                    format!("an error there, {} here", mine.number),
                );
            }
        }
    }
}

// Catalog::as_vec.
pub fn catalog_page(random: &mut Random, ours: &mut Ours, report: &mut Report) {
    let n = if random.one_in(8) {
        random.within(8, 12)
    } else {
        random.below(8)
    };
    let header = match random.below(6) {
        0 => {
            let short = random.below(12);
            random.bytes(short)
        }
        1 => random.bytes(30),
        _ => random.bytes(11),
    };
    // Most pages have plain names alone.
    let tame = !random.one_in(3);
    let mut names: Vec<Vec<u8>> = Vec::new();
    let mut form: Vec<u8> = Vec::new();
    for _ in 0..n {
        let mut name = name_bytes(random);
        if tame {
            name.iter_mut().for_each(|b| *b &= 0x7F);
            name.truncate(30);
            if name.is_empty() {
                name.push(b'A');
            }
        }
        let code = if random.one_in(3) {
            random.byte()
        } else {
            random.pick(&KINDS).0
        };
        form.extend([
            random.byte(),
            random.byte(),
            code,
            random.pick(&[0, 1, 0x80]),
            name.len() as u8,
        ]);
        // Past the name, and past 30 bytes, nothing is read.
        let mut bytes = name.clone();
        bytes.resize(30, random.byte());
        form.extend(bytes);
        form.extend(random.bytes(2));
        names.push(name);
    }
    let whole = form.len();
    if random.one_in(4) {
        let more = random.below(37);
        form.extend(random.bytes(more));
    }
    let mine = ours.catalog_page(&header, &form, report);

    let mut head = header.clone();
    head.resize(11, 0);
    let entries: Vec<FileEntry> = (0..n)
        .map(|k| {
            let e = &form[37 * k..37 * k + 37];
            FileEntry {
                track_of_first_track_sector_list_sector: e[0],
                sector_of_first_track_sector_list_sector: e[1],
                file_type: kind_of(e[2]),
                locked: e[3] != 0,
                file_name: &names[k],
                file_length_in_sectors: u16::from_le_bytes([e[35], e[36]]),
            }
        })
        .collect();
    let page = Catalog {
        reserved: head[0],
        track_number_of_next_sector: head[1],
        sector_number_of_next_sector: head[2],
        reserved_2: &head[3..],
        file_entries: entries,
        catalog_by_filename: HashMap::new(),
    };
    let theirs = caught(|| page.as_vec().ok()).unwrap_or(None);
    report.compared("Catalog::as_vec");
    let input = &[&[header.len() as u8], &header[..], &form[..whole]].concat();
    let dropped = names
        .iter()
        .filter(|n| n.is_empty() || n.len() > 30)
        .count();
    match theirs {
        None => {
            let expected = if n > 7 { 16 } else { 14 };
            if mine.number != expected {
                report.difference(
                    "catalog_page",
                    input,
                    format!("a panic there, {} here", mine.number),
                );
            }
        }
        Some(bytes) if dropped > 0 => {
            if mine.number != 14 || bytes.len() != 256 - 35 * dropped {
                report.difference(
                    "catalog_page",
                    input,
                    format!("dropped entries: {}", mine.number),
                );
            }
            report.explained("Catalog::as_vec, an empty or overlong name: dropped, ours 14");
        }
        Some(_) if !names.iter().all(|n| plain(n)) => {
            if mine.number != 14 {
                report.difference(
                    "catalog_page",
                    input,
                    format!("80h or more in a name: {}", mine.number),
                );
            }
            report.explained("Catalog::as_vec, a name byte of 80h or more: wrapped, ours 14");
        }
        Some(bytes) => {
            if mine.number != 0 || mine.bytes != bytes {
                report.difference(
                    "catalog_page",
                    input,
                    format!("{:?} against {:?}", mine, bytes),
                );
            }
        }
    }
}

// FullFile::as_vec.
pub fn binary_file(random: &mut Random, ours: &mut Ours, report: &mut Report) {
    let code = match random.below(4) {
        0 => random.byte(),
        1 => random.pick(&KINDS).0,
        _ => 4,
    };
    let (address, length) = (random.next() as u16, random.next() as u16);
    let size = if random.one_in(20) {
        random.within(60_000, 70_000)
    } else {
        random.below(700)
    };
    let data = random.bytes(size);
    let input = [
        &[code],
        &address.to_le_bytes()[..],
        &length.to_le_bytes(),
        &data,
    ]
    .concat();
    let mine = ours.binary_file(code, address, length, &data, report);
    let file = FullFile {
        file_entry: FileEntry::new(1, 1, kind_of(code), false, "A", 2),
        data: data.clone(),
        address,
        length,
    };
    report.compared("FullFile::as_vec");
    match file.as_vec() {
        Ok(bytes) if mine.number == 0 && mine.bytes == bytes => {}
        Err(_) if mine.number == 15 => {}
        theirs => report.difference(
            "binary_file",
            &input,
            format!(
                "kind {code}: {} here, {} there",
                mine.number,
                if theirs.is_ok() { "accepted" } else { "error" }
            ),
        ),
    }
}

// recognize_prologue.
pub fn prologue(random: &mut Random, ours: &mut Ours, report: &mut Report) {
    let n = if random.one_in(10) {
        random.below(5000)
    } else {
        random.below(40)
    };
    let letters = [0xD5, 0xAA, 0x96, 0xB5, 0xAD, 0xFF];
    let used = random.within(3, letters.len());
    let mut stream: Vec<u8> = if n > 40 {
        random.bytes(n)
    } else {
        (0..n).map(|_| random.pick(&letters[..used])).collect()
    };
    if random.one_in(4) {
        let at = random.below(stream.len() + 1);
        let last = random.pick(&letters);
        stream.splice(at..at, [0xD5, 0xAA, last]);
        stream.truncate(random.within(at, stream.len()));
    }
    let mine = ours.recognize_prologue(&stream);
    let theirs = caught(|| nibble::recognize_prologue(&stream));
    report.compared(match mine {
        0x96 => "recognize_prologue, answer 96h",
        0xB5 => "recognize_prologue, answer B5h",
        _ => "recognize_prologue, answer none",
    });
    match theirs {
        Ok(byte) if byte.unwrap_or(0) == mine => {}
        theirs => report.difference(
            "prologue",
            &stream,
            format!("{mine} here, {theirs:?} there"),
        ),
    }
}

const HEADER: [u8; 9] = [0x01, 0xA5, 0x27, 0xC9, 0x09, 0xD0, 0x18, 0xA5, 0x2B];

// format_from_data.
pub fn format(random: &mut Random, ours: &mut Ours, report: &mut Report) {
    let n = match random.below(4) {
        0 => random.within(0, 12),
        1 => random.within(69_630, 69_640),
        2 => 143_360,
        _ => random.below(150_000),
    };
    let mut data = vec![random.byte(); n];
    put(&mut data, 0, &HEADER);
    put(&mut data, 69_633, &[17, 15, 3]);
    if random.one_in(2) {
        let at = random.pick(&[
            0, 1, 2, 3, 4, 5, 6, 7, 8, 9, 69_632, 69_633, 69_634, 69_635, 69_636,
        ]);
        let byte = random.byte();
        put(&mut data, at, &[byte]);
    }
    let (number, fields) = ours.format_from_data(&data, report);
    let theirs = disk::format_from_data(&data);
    let guess = AppleDiskGuess::new(Encoding::Plain, Format::DOS33(n as u64), &data);
    let same = match &theirs {
        Err(_) => number == 17,
        Ok(None) => number == 0 && fields == [0],
        Ok(Some(found)) => number == 0 && fields == [1] && *found == DiskImageGuess::Apple(guess),
    };
    report.compared(match theirs {
        Err(_) => "format_from_data, cut short",
        Ok(None) => "format_from_data, no",
        Ok(Some(_)) => "format_from_data, yes",
    });
    if !same {
        report.difference(
            "format",
            &data,
            format!("{number} {fields:?} here, {} there", theirs.is_ok()),
        );
    }
}

// Puts what fits.
fn put(data: &mut [u8], at: usize, bytes: &[u8]) {
    for (k, b) in bytes.iter().enumerate() {
        if at + k < data.len() {
            data[at + k] = *b;
        }
    }
}
