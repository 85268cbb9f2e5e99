// Streams of 13 sectors a track, written in the way of DOS 3.2, and a data field read by the words of document 02.

/// The disk bytes of the values 0 to 31.
pub const DISK_BYTES: [u8; 32] = [
    0xAB, 0xAD, 0xAE, 0xAF, 0xB5, 0xB6, 0xB7, 0xBA, 0xBB, 0xBD, 0xBE, 0xBF, 0xD6, 0xD7, 0xDA, 0xDB,
    0xDD, 0xDE, 0xDF, 0xEA, 0xEB, 0xED, 0xEE, 0xEF, 0xF5, 0xF6, 0xF7, 0xFA, 0xFB, 0xFD, 0xFE, 0xFF,
];

/// The bytes of a field of `stream`, and where its address's values, its nibbles and its sum begin.
pub const FIELD: usize = 40 + 14 + 6 + 3 + 411 + 3;
pub const ADDRESS: usize = 40 + 3;
pub const NIBBLES: usize = 40 + 14 + 6 + 3;
pub const SUM: usize = NIBBLES + 410;

/// The 410 nibbles of a sector and the sum. The five-bit parts go to one buffer, in five rows of 51 that run
/// backwards, and what is left of five bytes to three numbers of the other; the last byte stands alone.
pub fn encode(sector: &[u8]) -> Vec<u8> {
    let mut fives = [0u8; 256];
    let mut threes = [0u8; 154];
    for (group, bytes) in sector.chunks_exact(5).enumerate() {
        let k = 50 - group;
        for (row, byte) in bytes.iter().enumerate() {
            fives[51 * row + k] = byte >> 3;
        }
        let (d, e) = (bytes[3], bytes[4]);
        threes[k] = (bytes[0] & 7) << 2 | (d & 4) >> 1 | (e & 4) >> 2;
        threes[51 + k] = (bytes[1] & 7) << 2 | (d & 2) | (e & 2) >> 1;
        threes[102 + k] = (bytes[2] & 7) << 2 | (d & 1) << 1 | (e & 1);
    }
    fives[255] = sector[255] >> 3;
    threes[153] = sector[255] & 7;
    nibbles(threes.iter().rev().chain(&fives).copied())
}

/// Values as nibbles: each with the one before it, and the last once more as the sum.
pub fn nibbles(values: impl Iterator<Item = u8>) -> Vec<u8> {
    let mut before = 0;
    let mut all: Vec<u8> = values
        .map(|v| DISK_BYTES[usize::from(std::mem::replace(&mut before, v) ^ v)])
        .collect();
    all.push(DISK_BYTES[usize::from(before)]);
    all
}

/// The 256 bytes of 410 nibbles and a sum, whatever bytes they are, and whether the sum is right.
pub fn decode(nibbles: &[u8]) -> (Vec<u8>, bool) {
    let mut running = 0;
    let values: Vec<u8> = nibbles[..411]
        .iter()
        .map(|n| {
            running ^= DISK_BYTES.iter().position(|d| d == n).unwrap_or(0) as u8;
            running
        })
        .collect();
    let t = |j: usize| values[153 - j];
    let b = |j: usize| values[154 + j];
    let mut bytes = Vec::new();
    for k in (0..=50).rev() {
        let three = [t(k), t(k + 51), t(k + 102)];
        let bits = |n: u8| three.iter().fold(0, |all, t| 2 * all + (t >> n & 1));
        let low = [
            three[0] >> 2,
            three[1] >> 2,
            three[2] >> 2,
            bits(1),
            bits(0),
        ];
        bytes.extend((0..5).map(|row| b(k + 51 * row) << 3 | low[row]));
    }
    bytes.push(b(255) << 3 | t(153) & 7);
    (bytes, values[410] == 0)
}

/// The eleven bytes of an address, with that sum.
pub fn address(volume: u8, track: u8, sector: u8, sum: u8) -> Vec<u8> {
    let mut a = vec![0xD5, 0xAA, 0xB5];
    for v in [volume, track, sector, sum] {
        a.extend([v >> 1 | 0xAA, v | 0xAA]);
    }
    a
}

/// A sector writing: a gap, address, a gap, data field.
pub fn field(volume: u8, track: u8, sector: u8, nibbles: &[u8]) -> Vec<u8> {
    let mut f = vec![0xFF; 40];
    f.extend(address(volume, track, sector, volume ^ track ^ sector));
    f.extend([0xDE, 0xAA, 0xEB]);
    f.extend([0xFF; 6]);
    f.extend([0xD5, 0xAA, 0xAD]);
    f.extend(nibbles);
    f.extend([0xDE, 0xAA, 0xEB]);
    f
}

/// The sector writings of a flat disk of 116,480 bytes, track by track, in the order in which DOS 3.2 lays them down on a track: 0, 10, 7, 4, ..
pub fn fields(disk: &[u8], volume: u8) -> Vec<Vec<u8>> {
    let sectors = (0..35 * 13).map(|n| (n / 13, n % 13 * 10 % 13));
    sectors
        .map(|(t, s)| {
            let sector = &disk[super::at_13(t, s)..][..256];
            field(volume, t as u8, s as u8, &encode(sector))
        })
        .collect()
}

/// A stream of a flat disk of 116,480 bytes.
pub fn stream(disk: &[u8], volume: u8) -> Vec<u8> {
    fields(disk, volume).concat()
}

/// Where the writing of a sector stands in such a stream.
pub fn place(track: usize, sector: usize) -> usize {
    let turn = (0..13).find(|n| n * 10 % 13 == sector).unwrap();
    FIELD * (13 * track + turn)
}
