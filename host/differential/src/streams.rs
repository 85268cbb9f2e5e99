// parse_nib_disk, asked key by key, against dos33_sector.
use std::collections::BTreeMap;

use crate::config::Config;
use crate::disk_format::apple::nibble::{build_nibble_sector, parse_nib_disk};
use crate::disks::SIZE;
use crate::ours::{Answer, Ours};
use crate::panics::caught;
use crate::random::Random;
use crate::report::Report;

type Key = (u8, u8, u8);

const ADDRESS: [u8; 3] = [0xD5, 0xAA, 0x96];
const DATA: [u8; 3] = [0xD5, 0xAA, 0xAD];

fn four(value: u8) -> [u8; 2] {
    [(value >> 1) | 0xAA, value | 0xAA]
}

fn address(key: Key, sum: u8) -> Vec<u8> {
    let mut field = ADDRESS.to_vec();
    for value in [key.0, key.1, key.2, sum] {
        field.extend(four(value));
    }
    field
}

// What both are given at the end: parse_nib_disk returns only for a stream that ends just after 342 nibbles.
pub fn tail() -> Vec<u8> {
    let mut tail = address((0, 0, 0), 0);
    tail.extend([0xDE, 0xAA, 0xEB]);
    tail.extend(DATA);
    tail.extend([0x96; 342]);
    tail
}

fn find(stream: &[u8], from: usize, what: &[u8; 3]) -> Option<usize> {
    (from..stream.len().saturating_sub(2)).find(|k| stream[*k..*k + 3] == *what)
}

// The end of the last whole pair, and whether a whole address after it has a wrong sum.
fn last_pair(stream: &[u8]) -> (usize, bool) {
    let mut end = 0;
    loop {
        let Some(a) = find(stream, end, &ADDRESS) else {
            return (end, false);
        };
        if a + 14 > stream.len() {
            return (end, false);
        }
        let value = |k: usize| (stream[a + k] << 1 | 1) & stream[a + k + 1];
        let wrong = value(3) ^ value(5) ^ value(7) != value(9);
        match find(stream, a + 14, &DATA) {
            Some(d) if d + 349 <= stream.len() => end = d + 349,
            _ => return (end, wrong),
        }
    }
}

fn junk(random: &mut Random, most: usize) -> Vec<u8> {
    let n = random.below(most + 1);
    match random.below(6) {
        0 => random.bytes(n),
        1 => (0..n).map(|_| random.pick(&[0xD5, 0xAA, 0xFF])).collect(),
        2 => (0..n)
            .map(|_| random.pick(&[0xD5, 0xAA, 0x96, 0xAD, 0xFF]))
            .collect(),
        _ => vec![0xFF; n],
    }
}

// A field of some kind after another.
fn stream(random: &mut Random) -> Vec<u8> {
    let fields = match random.below(10) {
        0 => 0,
        1..=7 => random.within(1, 30),
        8 => random.within(30, 100),
        _ => 600,
    };
    // Most have one volume; few keys make repeats.
    let volumes = random.pick(&[1, 1, 1, 3]);
    let keys = random.pick(&[3, 16, 40, 256]);
    let clean = random.one_in(3);
    let gap = random.pick(&[0, 5, 48]);
    let volume = random.byte();
    let mut stream = if clean {
        vec![0xFF; gap]
    } else {
        junk(random, gap)
    };
    let mut done: Vec<Key> = Vec::new();
    for _ in 0..fields {
        let mut key = (
            volume.wrapping_add(random.below(volumes) as u8),
            random.below(keys.min(40)) as u8,
            random.below(keys.min(16)) as u8,
        );
        if !clean && random.one_in(15) {
            key = (random.byte(), random.byte(), random.byte());
        }
        let repeated = done.contains(&key);
        done.push(key);
        let mut sum = key.0 ^ key.1 ^ key.2;
        if !clean && random.one_in(150) {
            sum ^= 1 << random.below(8);
        }
        let mut a = address(key, sum);
        // The high bit of a first byte is not read.
        if random.one_in(20) {
            let at = 3 + 2 * random.below(4);
            a[at] ^= 0x80;
        }
        a.extend(epilogue(random));
        let sector = if random.one_in(3) {
            vec![random.byte(); 256]
        } else {
            random.bytes(256)
        };
        let mut d = DATA.to_vec();
        d.extend(build_nibble_sector(&sector).data);
        d.push(sum_nibble(&d[3..]));
        d.extend(epilogue(random));
        // Sums of repeated fields are not looked at.
        if !clean && (random.one_in(150) || (repeated && random.one_in(3))) {
            let at = random.within(3, 345);
            d[at] = random.byte();
        }
        let mut part = a.clone();
        part.extend(if clean {
            vec![0xFF; gap]
        } else {
            junk(random, gap)
        });
        part.extend(&d);
        if !clean {
            match random.below(40) {
                // An address alone: the data search runs past the next one.
                0 => part = a,
                // Data alone.
                1 => part = d,
                2 => {
                    let n = random.below(part.len());
                    part.truncate(n);
                }
                3 => {
                    let n = random.within(part.len() - 8, part.len());
                    part.truncate(n);
                }
                4 => {
                    let at = random.below(part.len());
                    part.insert(at, random.byte());
                }
                // Nibbles that no table has, AAh among them.
                5 => {
                    let at = part.len() - random.within(10, 300);
                    part[at] = random.pick(&[0xAA, 0x00, 0x7F, 0x80, 0x95, 0xD5]);
                }
                _ => {}
            }
        }
        stream.extend(part);
        stream.extend(if clean {
            vec![0xFF; gap]
        } else {
            junk(random, gap)
        });
    }
    if !clean {
        damage(random, &mut stream);
    }
    stream
}

fn epilogue(random: &mut Random) -> [u8; 3] {
    if random.one_in(10) {
        return [random.byte(), random.byte(), random.byte()];
    }
    [0xDE, 0xAA, 0xEB]
}

// The nibble that makes the running sum zero.
fn sum_nibble(nibbles: &[u8]) -> u8 {
    // The table in order: a sector of zeros but one last byte ends in the nibble of its high six bits.
    thread_local! {
        static TABLE: Vec<u8> = (0..64u8)
            .map(|high| {
                let mut sector = [0; 256];
                sector[255] = high << 2;
                build_nibble_sector(&sector).data[341]
            })
            .collect();
    }
    TABLE.with(|table| {
        let read = |n: &u8| table.iter().position(|t| t == n).unwrap_or(0);
        table[nibbles.iter().fold(0, |sum, n| sum ^ read(n))]
    })
}

fn damage(random: &mut Random, stream: &mut Vec<u8>) {
    if stream.is_empty() {
        return;
    }
    match random.below(8) {
        0 => {
            let n = random.below(stream.len());
            stream.truncate(n);
        }
        1 => {
            let n = stream.len() - random.below(stream.len().min(12));
            stream.truncate(n);
        }
        2 => {
            for _ in 0..random.within(1, 3) {
                let at = random.below(stream.len());
                stream[at] = random.byte();
            }
        }
        3 => {
            // Begun in the middle of a track.
            let n = random.below(stream.len());
            stream.rotate_left(n);
        }
        4 => {
            // One more address at the end, its sum right or wrong.
            let sum = random.below(2) as u8;
            stream.extend(address((1, 2, 3), sum));
            stream.extend(junk(random, 5));
        }
        5 => {
            // Ended just before a sum, where image-rider returns, or near it.
            let near = random.pick(&[342, 345, 345, 345, 346, 347, 348, 349]);
            let starts: Vec<usize> = (0..stream.len())
                .filter(|k| stream[*k..].starts_with(&DATA))
                .collect();
            if !starts.is_empty() {
                let n = random.pick(&starts) + near;
                stream.truncate(n);
            }
        }
        _ => {}
    }
}

// What image-rider gives: its sectors, 8 or 9, or none since it does not return (Incomplete).
type Found = Option<Result<BTreeMap<Key, Vec<u8>>, u8>>;

// The same, or the text of a panic that has no number.
pub fn image_rider(stream: &[u8], config: &Config) -> Result<Found, String> {
    let result = caught(|| match parse_nib_disk(config)(stream) {
        Ok((_, disk)) => {
            let mut all = BTreeMap::new();
            for (v, volume) in &disk.volumes {
                for (t, track) in &volume.tracks {
                    for (s, sector) in &track.sectors {
                        all.insert((*v, *t, *s), sector.data.clone());
                    }
                }
            }
            Some(all)
        }
        Err(nom::Err::Incomplete(_)) => None,
        Err(e) => panic!("{e}"),
    });
    match result {
        Ok(found) => Ok(found.map(Ok)),
        Err(text) if text.contains("Address field computed checksum") => Ok(Some(Err(8))),
        Err(text) if text.contains("Invalid checksum on data") => Ok(Some(Err(9))),
        Err(text) => Err(text),
    }
}

fn theirs(stream: &[u8], config: &Config, report: &Report) -> Found {
    image_rider(stream, config)
        .unwrap_or_else(|text| report.difference("stream", stream, format!("panic {text}")))
}

pub fn sectors(random: &mut Random, config: &Config, ours: &mut Ours, report: &mut Report) {
    let stream = stream(random);
    compare(&stream, random, config, ours, report);
}

pub fn compare(
    stream: &[u8],
    random: &mut Random,
    config: &Config,
    ours: &mut Ours,
    report: &mut Report,
) {
    report.compared("parse_nib_disk");
    match theirs(stream, config, report) {
        None => {
            report.explained("parse_nib_disk on an ordinary stream: Incomplete, ours the fields")
        }
        Some(expected) => {
            same(stream, &expected, random, ours, report);
            report.compared("parse_nib_disk, the stream itself");
        }
    }
    // As it is, and cut after its last whole pair; each with the tail.
    let (end, wrong) = last_pair(stream);
    let whole = [stream, &tail()].concat();
    let cut = [&stream[..end], &tail()].concat();
    let first = theirs(&whole, config, report);
    if let Some(expected) = &first {
        same(&whole, expected, random, ours, report);
        report.compared("parse_nib_disk, the stream and a tail");
    }
    let expected = match theirs(&cut, config, report) {
        Some(expected) => expected,
        None => report.difference(
            "stream",
            &cut,
            "the Rust does not return after the cut".into(),
        ),
    };
    same(&cut, &expected, random, ours, report);
    report.compared("parse_nib_disk, the stream cut and a tail");
    // Ours on the stream itself: as on the one that was cut, but for an address after the last pair.
    let expected = if wrong { Err(8) } else { expected };
    same(stream, &expected, random, ours, report);
    match expected {
        Ok(_) => report.compared("parse_nib_disk, sectors against ours"),
        Err(8) => report.compared("parse_nib_disk, a panic against 8"),
        Err(_) => report.compared("parse_nib_disk, a panic against 9"),
    }
}

// Ours gives the same, key by key.
fn same(
    stream: &[u8],
    expected: &Result<BTreeMap<Key, Vec<u8>>, u8>,
    random: &mut Random,
    ours: &mut Ours,
    report: &mut Report,
) {
    let mut keys: Vec<Key> = vec![(0, 0, 0), (random.byte(), random.byte(), random.byte())];
    if let Ok(all) = expected {
        let some: Vec<Key> = all.keys().copied().collect();
        for _ in 0..some.len().min(6) {
            let key = random.pick(&some);
            keys.push(key);
            let near = random.pick(&[(1, 0, 0), (0, 1, 0), (0, 0, 1)]);
            keys.push((key.0 ^ near.0, key.1 ^ near.1, key.2 ^ near.2));
        }
        // All of a short one.
        if some.len() < 40 {
            keys.extend(some);
        }
    }
    for key in keys {
        let answer = match expected {
            Err(number) => Answer {
                number: *number,
                bytes: Vec::new(),
            },
            Ok(all) => match all.get(&key) {
                Some(bytes) => Answer {
                    number: 0,
                    bytes: bytes.clone(),
                },
                None => Answer {
                    number: 10,
                    bytes: Vec::new(),
                },
            },
        };
        let mine = ours.sector(stream, key, report);
        if mine != answer {
            report.difference(
                "stream",
                stream,
                format!("key {key:?}: {} there, {} here", answer.number, mine.number),
            );
        }
        report.compared("keys asked for");
    }
}

// Our stream of a whole disk: image-rider reads each sector where the interleave puts it.
pub fn written(random: &mut Random, config: &Config, ours: &mut Ours, report: &mut Report) {
    let disk = random.bytes(SIZE);
    let volume = disk[17 * 4096 + 6];
    let stream = ours.nibblize(&disk, report).bytes;
    let Some(Ok(all)) = theirs(&[&stream[..], &tail()].concat(), config, report) else {
        report.difference(
            "nibblize",
            &disk,
            "the Rust does not read our stream".into(),
        );
    };
    for t in 0..35u8 {
        for p in 0..16u8 {
            let s = if p == 15 { 15 } else { 7 * p as usize % 15 };
            let at = 4096 * t as usize + 256 * s;
            if all.get(&(volume, t, p)).map(|v| &v[..]) != Some(&disk[at..at + 256]) {
                report.difference("nibblize", &disk, format!("track {t}, address sector {p}"));
            }
        }
    }
    if all.len() != 560 {
        report.difference("nibblize", &disk, format!("{} sectors", all.len()));
    }
    report.compared("dos33_nibblize, read by parse_nib_disk");
}
