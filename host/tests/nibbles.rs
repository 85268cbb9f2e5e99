// Streams, sectors by key, record writers and recognisers.
mod common;
use common::{address, at, disk, field};
use dos33::*;

#[test]
fn round_trip() {
    let mut dice = common::Dice(0x5EED);
    let mut bytes = disk();
    for b in bytes.iter_mut() {
        *b ^= dice.roll(256) as u8;
    }
    let stream = nibblize(&bytes).unwrap();
    assert_eq!(stream.len(), STREAM_SIZE);
    assert_eq!(denibblize(&stream).unwrap(), bytes);
    assert_eq!(Disk::nibbles(&stream).unwrap().nibblize().unwrap(), stream);
    // From any point of the turn on, but for the field that is cut: twice the stream has it again.
    let twice = [&stream[..], &stream[..]].concat();
    assert_eq!(denibblize(&twice[1000..]).unwrap(), bytes);
    // The tracks in another order.
    let turned = [&stream[16 * 416 * 20..], &stream[..16 * 416 * 20]].concat();
    assert_eq!(denibblize(&turned).unwrap(), bytes);
}

#[test]
fn the_form_of_a_stream() {
    let bytes = disk();
    let stream = nibblize(&bytes).unwrap();
    let f = field(17, 15);
    assert_eq!(stream[f..f + 48], [0xFF; 48]);
    assert_eq!(stream[f + 48..f + 51], [0xD5, 0xAA, 0x96]);
    // Volume FEh, track 17, sector 15, their sum.
    assert_eq!(
        stream[f + 51..f + 59],
        [0xFF, 0xFE, 0xAA, 0xBB, 0xAF, 0xAF, 0xFA, 0xEA]
    );
    assert_eq!(
        stream[f + 59..f + 70],
        [0xDE, 0xAA, 0xEB, 255, 255, 255, 255, 255, 0xD5, 0xAA, 0xAD]
    );
    assert_eq!(
        stream[f + 70..f + 413],
        encode_sector(&bytes[at(17, 15)..at(18, 0)]).unwrap()
    );
    assert_eq!(stream[f + 413..f + 416], [0xDE, 0xAA, 0xEB]);
}

#[test]
fn sectors_by_key() {
    let bytes = disk();
    let stream = nibblize(&bytes).unwrap();
    for track in [0u8, 17, 34] {
        for sector in 0..16u8 {
            let dos = if sector == 15 {
                15
            } else {
                7 * usize::from(sector) % 15
            };
            let from = at(track.into(), dos);
            let got = stream_sector(
                &stream,
                Key {
                    volume: 254,
                    track,
                    sector,
                },
            )
            .unwrap();
            assert_eq!(got, bytes[from..from + 256]);
        }
    }
    // Any three bytes are a key.
    let mut stream = stream;
    address(&mut stream, field(3, 4), 9, 200, 99);
    let got = stream_sector(
        &stream,
        Key {
            volume: 9,
            track: 200,
            sector: 99,
        },
    )
    .unwrap();
    assert_eq!(got, bytes[at(3, 13)..at(3, 14)]);
    assert_eq!(
        stream_sector(
            &stream,
            Key {
                volume: 254,
                track: 3,
                sector: 4
            }
        ),
        Err(Refusal::Absent)
    );
}

// The DOS sectors of address sectors 0 to 15, as the interleave figure of Beneath Apple DOS has them.
const FIGURE: [usize; 16] = [0, 7, 14, 6, 13, 5, 12, 4, 11, 3, 10, 2, 9, 1, 8, 15];

#[test]
fn the_order_on_a_track() {
    let mut dice = common::Dice(0xF16);
    let bytes: Vec<u8> = (0..DISK_SIZE).map(|_| dice.roll(256) as u8).collect();
    let volume = bytes[at(17, 0) + 6];
    let mut stream = nibblize(&bytes).unwrap();
    for track in 0..35u8 {
        for sector in 0..16u8 {
            let from = at(track.into(), FIGURE[usize::from(sector)]);
            let key = Key {
                volume,
                track,
                sector,
            };
            assert_eq!(
                stream_sector(&stream, key).unwrap(),
                bytes[from..from + 256],
                "track {track}, address sector {sector}"
            );
        }
    }
    assert_eq!(denibblize(&stream).unwrap(), bytes);
    // Each address says the next sector, so the reader puts each sector where the figure has that one.
    let mut moved = bytes.clone();
    for track in 0..35 {
        for (sector, dos) in FIGURE.into_iter().enumerate() {
            let next = (sector + 1) % 16;
            let place = field(track, sector);
            address(&mut stream, place, volume, track as u8, next as u8);
            let from = at(track, dos);
            let to = at(track, FIGURE[next]);
            moved[to..to + 256].copy_from_slice(&bytes[from..from + 256]);
        }
    }
    assert_eq!(denibblize(&stream).unwrap(), moved);
}

#[test]
fn encoding() {
    let mut sector = [0u8; 256];
    sector[255] = 0xFF;
    let n = encode_sector(&sector).unwrap();
    for (k, &b) in n.iter().enumerate() {
        let due = match k {
            83 | 84 => 0xED,
            341 | 342 => 0xFF,
            _ => 0x96,
        };
        assert_eq!(b, due, "nibble {k}");
    }
    assert_eq!(encode_sector(&[0; 255]), Err(Refusal::OffSize));
    assert_eq!(encode_sector(&[0; 257]), Err(Refusal::OffSize));
}

#[test]
fn records() {
    let bytes = disk();
    let catalog = Disk::flat(&bytes).catalog().unwrap();
    let page = at(17, 15);
    // What the catalog read is written as it stands on the disk.
    assert_eq!(
        EntryRecord::from(&catalog[0]).to_bytes().unwrap(),
        bytes[page + 11..page + 46]
    );
    assert_eq!(
        EntryRecord::from(&catalog[1]).to_bytes().unwrap(),
        bytes[page + 81..page + 116]
    );
    let entries: Vec<EntryRecord> = catalog.iter().map(EntryRecord::from).collect();
    let written = catalog_page(&[1, 2, 3, 4, 5, 6, 7, 8, 9, 10, 11, 99], &entries).unwrap();
    assert_eq!(written[..11], [1, 2, 3, 4, 5, 6, 7, 8, 9, 10, 11]);
    assert_eq!(written[11..46], bytes[page + 11..page + 46]);
    assert_eq!(written[46..81], bytes[page + 81..page + 116]);
    let last = at(17, 14) + 11 + 35 * 6;
    assert_eq!(written[81..116], bytes[last..last + 35]);
    assert_eq!(written[116..], [0; 140]);
    // Unknown types are 41.
    let unknown = EntryRecord {
        kind: FileType::Unknown,
        ..entries[0]
    };
    assert_eq!(unknown.to_bytes().unwrap()[2], 41 + 128);
    let long = binary_file(FileType::Binary, 0x1234, 0xFFFF, &[5; 70_000]).unwrap();
    assert_eq!(
        (long.len(), &long[..5]),
        (70_004, &[0x34, 0x12, 0xFF, 0xFF, 5][..])
    );
}

#[test]
fn types_have_their_codes() {
    let known = [0u8, 1, 2, 4, 8, 10, 20, 40];
    for code in 0..=255u8 {
        let due = if known.contains(&code) { code } else { 41 };
        assert_eq!(FileType::from_code(code).code(), due);
    }
    // And the library takes the same nine.
    let mut d = disk();
    for code in 0..128u8 {
        d[at(17, 15) + 13] = code;
        let kind = Disk::flat(&d).catalog().unwrap()[0].kind;
        assert_eq!(kind, FileType::from_code(code));
    }
}

#[test]
fn recognisers() {
    assert_eq!(
        recognize_prologue(&nibblize(&disk()).unwrap()),
        Some(Prologue::SixteenSectors)
    );
    assert_eq!(
        recognize_prologue(b"\xD5\xAA\xAD\xD5\xAA\xB5\xD5\xAA\x96"),
        Some(Prologue::ThirteenSectors)
    );
    assert_eq!(recognize_prologue(&[]), None);
    let mut d = disk();
    assert_eq!(format_from_data(&d), Ok(false));
    d[..9].copy_from_slice(&[0x01, 0xA5, 0x27, 0xC9, 0x09, 0xD0, 0x18, 0xA5, 0x2B]);
    assert_eq!(format_from_data(&d), Ok(true));
    assert_eq!(format_from_data(&d[..69_636]), Ok(true));
    assert_eq!(format_from_data(&d[..69_635]), Err(Refusal::CutShort));
    d[69_634] = 14;
    assert_eq!(format_from_data(&d), Ok(false));
}
