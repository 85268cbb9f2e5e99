// A stream of 13 sectors a track, written in the way of DOS 3.2. image-rider reads none: it is for the bench alone.
use crate::disks::SIZE_13;

// The disk bytes of the values 0 to 31.
const DISK_BYTES: [u8; 32] = [
    0xAB, 0xAD, 0xAE, 0xAF, 0xB5, 0xB6, 0xB7, 0xBA, 0xBB, 0xBD, 0xBE, 0xBF, 0xD6, 0xD7, 0xDA, 0xDB,
    0xDD, 0xDE, 0xDF, 0xEA, 0xEB, 0xED, 0xEE, 0xEF, 0xF5, 0xF6, 0xF7, 0xFA, 0xFB, 0xFD, 0xFE, 0xFF,
];

// The 410 nibbles of a sector and the sum.
fn encode(sector: &[u8]) -> Vec<u8> {
    let mut fives = [0u8; 256];
    let mut threes = [0u8; 154];
    for (group, b) in sector.chunks_exact(5).enumerate() {
        let k = 50 - group;
        for row in 0..5 {
            fives[51 * row + k] = b[row] >> 3;
        }
        for row in 0..3 {
            let (d, e) = (b[3] >> (2 - row) & 1, b[4] >> (2 - row) & 1);
            threes[51 * row + k] = (b[row] & 7) << 2 | d << 1 | e;
        }
    }
    fives[255] = sector[255] >> 3;
    threes[153] = sector[255] & 7;
    let mut last = 0;
    let mut nibbles = Vec::new();
    for v in threes.iter().rev().chain(&fives) {
        nibbles.push(DISK_BYTES[(last ^ v) as usize]);
        last = *v;
    }
    nibbles.push(DISK_BYTES[last as usize]);
    nibbles
}

// The gaps are those that `dos33_nibblize` writes in a stream of 16 sectors a track.
pub fn stream(disk: &[u8], volume: u8) -> Vec<u8> {
    assert_eq!(disk.len(), SIZE_13);
    let mut stream = Vec::new();
    for (n, sector) in disk.chunks_exact(256).enumerate() {
        let (track, number) = ((n / 13) as u8, (n % 13) as u8);
        stream.extend([0xFF; 48]);
        stream.extend([0xD5, 0xAA, 0xB5]);
        for v in [volume, track, number, volume ^ track ^ number] {
            stream.extend([v >> 1 | 0xAA, v | 0xAA]);
        }
        stream.extend([0xDE, 0xAA, 0xEB]);
        stream.extend([0xFF; 5]);
        stream.extend([0xD5, 0xAA, 0xAD]);
        stream.extend(encode(sector));
        stream.extend([0xDE, 0xAA, 0xEB]);
    }
    stream
}
