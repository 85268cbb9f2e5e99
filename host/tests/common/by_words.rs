// Saving and deleting by the words of Req 09, and by a side as Req 10 has it, step by step on the bytes of a flat disk of 16 sectors a track that is read: 1 to 6
// are not told here.
// Nothing of the crate is called.

pub type Place = (u8, u8);

pub const VTOC: Place = (17, 0);
const TABLE: usize = 4096 * 17;
const MAP: usize = TABLE + 56;

pub fn at((track, sector): Place) -> usize {
    4096 * usize::from(track) + 256 * usize::from(sector)
}

fn pair(d: &[u8], i: usize) -> Place {
    (d[i], d[i + 1])
}

/// The pages of the catalog, in chain order.
pub fn pages(d: &[u8]) -> Vec<Place> {
    let mut all = vec![pair(d, TABLE + 1)];
    loop {
        let next = pair(d, at(all[all.len() - 1]) + 1);
        if next.0 == 0 || next.1 == 0 {
            return all;
        }
        all.push(next);
    }
}

/// Where the entry lines start, in chain order.
pub fn lines(d: &[u8]) -> Vec<usize> {
    let pages = pages(d).into_iter().map(at);
    pages
        .flat_map(|page| (0..7).map(move |k| page + 11 + 35 * k))
        .collect()
}

pub fn in_use(d: &[u8], line: usize) -> bool {
    d[line] != 0 && d[line] != 255
}

/// A name without its high bits and the spaces at its end.
pub fn shown(raw: &[u8]) -> Vec<u8> {
    let mut name: Vec<u8> = raw.iter().map(|b| b & 0x7F).collect();
    while name.last() == Some(&b' ') {
        name.pop();
    }
    name
}

fn named(d: &[u8], line: usize, name: &[u8]) -> bool {
    in_use(d, line) && shown(&d[line + 3..line + 33]) == name
}

/// The lists of a line in use.
pub fn lists(d: &[u8], line: usize) -> Vec<Place> {
    let mut all = Vec::new();
    let mut list = pair(d, line);
    while list.0 != 0 {
        all.push(list);
        list = pair(d, at(list) + 1);
    }
    all
}

/// The data sectors that a list names.
pub fn data_of(d: &[u8], list: Place) -> Vec<Place> {
    let pairs = (12..256).step_by(2).map(|k| pair(d, at(list) + k));
    pairs.take_while(|p| p.0 != 0).collect()
}

/// The lists of a line in use, each with its data sectors behind it.
pub fn sectors(d: &[u8], line: usize) -> Vec<Place> {
    let mut all = Vec::new();
    for list in lists(d, line) {
        all.push(list);
        all.extend(data_of(d, list));
    }
    all
}

fn bit((track, sector): Place) -> (usize, u8) {
    let byte = if sector < 8 { 1 } else { 0 };
    (MAP + 4 * usize::from(track) + byte, 1 << (sector % 8))
}

pub fn is_free(d: &[u8], place: Place) -> bool {
    let (byte, bit) = bit(place);
    d[byte] & bit != 0
}

pub fn mark(d: &mut [u8], place: Place, free: bool) {
    let (byte, bit) = bit(place);
    d[byte] = if free { d[byte] | bit } else { d[byte] & !bit };
}

/// Whoever holds a sector: the VTOC, the pages, lists and data.
pub fn held(d: &[u8]) -> Vec<Place> {
    let mut all = vec![VTOC];
    all.extend(pages(d));
    for line in lines(d) {
        if in_use(d, line) {
            all.extend(sectors(d, line));
        }
    }
    all
}

fn clean(d: &[u8]) -> bool {
    let mut seen = [false; 560];
    held(d).into_iter().all(|p| {
        let once = !std::mem::replace(&mut seen[at(p) / 256], true);
        once && !is_free(d, p)
    })
}

/// 1 to 30 bytes below 80h, no byte 0, no space at the end.
pub fn savable(name: &[u8]) -> bool {
    (1..=30).contains(&name.len())
        && name.iter().all(|b| (1..0x80).contains(b))
        && name[name.len() - 1] != b' '
}

// One search: the sector is taken in the map, and last track and direction are written back.
fn seek(d: &mut [u8], later_list: bool) -> Option<Place> {
    let last = if d[TABLE + 48] > 34 {
        17
    } else {
        d[TABLE + 48]
    };
    let up = d[TABLE + 49] != 255;
    for (from, up) in [(last, up), (17, !up), (17, up)] {
        let mut tracks: Vec<u8> = if up {
            (from..=34).collect()
        } else {
            (0..=from).rev().collect()
        };
        tracks.retain(|t| ![0, 17, d[TABLE + 1]].contains(t));
        for track in tracks {
            for sector in (u8::from(later_list)..16).rev() {
                if is_free(d, (track, sector)) {
                    mark(d, (track, sector), false);
                    d[TABLE + 48] = track;
                    d[TABLE + 49] = if up { 1 } else { 255 };
                    return Some((track, sector));
                }
            }
        }
    }
    None
}

fn put(d: &mut [u8], i: usize, (track, sector): Place) {
    d[i] = track;
    d[i + 1] = sector;
}

// A sector that is sought, its bytes zero.
fn fresh(d: &mut [u8], later_list: bool) -> Option<Place> {
    let place = seek(d, later_list)?;
    d[at(place)..at(place) + 256].fill(0);
    Some(place)
}

// The file in the line, or nothing where a search found no sector.
fn store(d: &mut [u8], line: usize, name: &[u8], address: u16, data: &[u8]) -> Option<()> {
    let mut file = address.to_le_bytes().to_vec();
    file.extend((data.len() as u16).to_le_bytes());
    file.extend(data);
    let mut link = line;
    let mut count = 0u16;
    for (k, part) in file.chunks(122 * 256).enumerate() {
        let list = fresh(d, k > 0)?;
        put(d, link, list);
        link = at(list) + 1;
        d[at(list) + 5] = 122 * k as u8;
        count += 1;
        for (i, bytes) in part.chunks(256).enumerate() {
            let place = fresh(d, false)?;
            put(d, at(list) + 12 + 2 * i, place);
            d[at(place)..at(place) + bytes.len()].copy_from_slice(bytes);
            count += 1;
        }
    }
    d[line + 2] = 4;
    d[line + 3..line + 33].fill(0xA0);
    for (to, letter) in d[line + 3..].iter_mut().zip(name) {
        *to = letter | 0x80;
    }
    d[line + 33..line + 35].copy_from_slice(&count.to_le_bytes());
    Some(())
}

/// 20, 14, 22, 21, or 0 and the file is on the disk.
pub fn save(d: &mut Vec<u8>, name: &[u8], address: u16, data: &[u8]) -> u8 {
    if !clean(d) {
        return 20;
    }
    if !savable(name) {
        return 14;
    }
    let lines = lines(d);
    if lines.iter().any(|x| named(d, *x, name)) {
        return 22;
    }
    let line = lines.into_iter().find(|x| !in_use(d, *x));
    let Some(line) = line.filter(|_| data.len() <= 32_768) else {
        return 21;
    };
    let mut after = d.clone();
    if store(&mut after, line, name, address, data).is_none() {
        return 21;
    }
    *d = after;
    0
}

/// 20, 14, 18, or 0 and the last entry of the name is deleted.
pub fn delete(d: &mut [u8], name: &[u8]) -> u8 {
    if !clean(d) {
        return 20;
    }
    if !savable(name) {
        return 14;
    }
    let Some(line) = lines(d).into_iter().rfind(|x| named(d, *x, name)) else {
        return 18;
    };
    for place in sectors(d, line) {
        mark(d, place, true);
    }
    d[line + 32] = d[line];
    d[line] = 255;
    0
}

// ---- by a side

/// Names that begin with S are the survey office's, all others ours.
pub fn belongs(survey: bool, name: &[u8]) -> bool {
    (name.first() == Some(&b'S')) == survey
}

/// Where the lines in use by a side start, in chain order.
pub fn own_lines(d: &[u8], survey: bool) -> Vec<usize> {
    let mut all = lines(d);
    all.retain(|x| in_use(d, *x) && belongs(survey, &shown(&d[x + 3..x + 33])));
    all
}

/// The sectors that a side holds, lists and data.
pub fn own_sectors(d: &[u8], survey: bool) -> Vec<Place> {
    let lines = own_lines(d, survey).into_iter();
    lines.flat_map(|x| sectors(d, x)).collect()
}

/// The sectors of so many bytes, lists and data: address and length stand before them, and a list has 122 pairs.
pub fn sectors_for(bytes: usize) -> usize {
    let data = (bytes + 4).div_ceil(256);
    data + data.div_ceil(122)
}

/// 20, 14, 23, 22, 24, 21, or 0 and the file is on the disk.
pub fn save_for(
    d: &mut Vec<u8>,
    survey: bool,
    limit: u64,
    name: &[u8],
    address: u16,
    data: &[u8],
) -> u8 {
    if !clean(d) {
        return 20;
    }
    if !savable(name) {
        return 14;
    }
    if !belongs(survey, name) {
        return 23;
    }
    if lines(d).into_iter().any(|x| named(d, x, name)) {
        return 22;
    }
    let together = own_sectors(d, survey).len() + sectors_for(data.len());
    if together as u64 > limit {
        return 24;
    }
    save(d, name, address, data)
}

/// 20, 14, 23, 18, or 0 and the last entry of the name is deleted.
pub fn delete_for(d: &mut [u8], survey: bool, name: &[u8]) -> u8 {
    if clean(d) && savable(name) && !belongs(survey, name) {
        return 23;
    }
    delete(d, name)
}
