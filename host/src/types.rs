use std::fmt;

/// A track number. On a disk: 0 to 34.
#[derive(Clone, Copy, Debug, PartialEq, Eq, Hash, PartialOrd, Ord)]
pub struct Track(pub u8);

/// A DOS sector number. On a disk: 0 to 15, or 0 to 12 where a track has 13 sectors.
#[derive(Clone, Copy, Debug, PartialEq, Eq, Hash, PartialOrd, Ord)]
pub struct Sector(pub u8);

/// A track and a sector.
#[derive(Clone, Copy, Debug, PartialEq, Eq, Hash, PartialOrd, Ord)]
pub struct Location {
    /// The track.
    pub track: Track,
    /// The sector.
    pub sector: Sector,
}

impl Location {
    /// The location of that track and sector.
    pub const fn new(track: Track, sector: Sector) -> Location {
        Location { track, sector }
    }
}

/// A pair of a track/sector list as [`Disk::pair_run`](crate::Disk::pair_run) hands it over: two bytes,
/// as C has them. It names a location, which may be off the disk.
#[derive(Clone, Copy, Debug, Default, PartialEq, Eq, Hash, PartialOrd, Ord)]
#[repr(C)]
pub struct TrackSectorPair {
    /// The track.
    pub track_number: u8,
    /// The sector.
    pub sector_number: u8,
}

impl From<TrackSectorPair> for Location {
    fn from(pair: TrackSectorPair) -> Location {
        Location::new(Track(pair.track_number), Sector(pair.sector_number))
    }
}

// The locations in a run of two bytes each.
pub(crate) fn locations(bytes: &[u8]) -> Vec<Location> {
    bytes
        .chunks_exact(2)
        .map(|p| Location::new(Track(p[0]), Sector(p[1])))
        .collect()
}

/// The type of a file: eight codes, and [`Unknown`](FileType::Unknown) for every other.
#[derive(Clone, Copy, Debug, PartialEq, Eq, Hash, PartialOrd, Ord)]
pub enum FileType {
    /// 0
    Text,
    /// 1
    IntegerBasic,
    /// 2
    ApplesoftBasic,
    /// 4: the only type whose files have bytes here.
    Binary,
    /// 8
    S,
    /// 10
    Relocatable,
    /// 20
    A,
    /// 40
    B,
    /// 41, and every code that is none of these.
    Unknown,
}

impl FileType {
    /// The type with this code (without the lock bit).
    pub fn from_code(code: u8) -> FileType {
        match code {
            0 => FileType::Text,
            1 => FileType::IntegerBasic,
            2 => FileType::ApplesoftBasic,
            4 => FileType::Binary,
            8 => FileType::S,
            10 => FileType::Relocatable,
            20 => FileType::A,
            40 => FileType::B,
            _ => FileType::Unknown,
        }
    }

    /// Its code.
    pub fn code(self) -> u8 {
        match self {
            FileType::Text => 0,
            FileType::IntegerBasic => 1,
            FileType::ApplesoftBasic => 2,
            FileType::Binary => 4,
            FileType::S => 8,
            FileType::Relocatable => 10,
            FileType::A => 20,
            FileType::B => 40,
            FileType::Unknown => 41,
        }
    }
}

/// A name as the catalog shows it: at most 30 bytes below 80h, no space at the end. It may be empty,
/// and it may hold control characters: [`Display`](fmt::Display) escapes those.
#[derive(Clone, Copy, PartialEq, Eq, Hash, PartialOrd, Ord)]
pub struct Name {
    bytes: [u8; 30],
    length: u8,
}

impl Name {
    // From the bytes of a field and a length, as the catalog call writes them and as an archive has them.
    pub(crate) fn shown(field: &[u8], length: u8) -> Name {
        let mut bytes = [0u8; 30];
        let n = usize::from(length).min(30).min(field.len());
        bytes[..n].copy_from_slice(&field[..n]);
        Name {
            bytes,
            length: n as u8,
        }
    }

    /// Its bytes.
    pub fn as_bytes(&self) -> &[u8] {
        &self.bytes[..usize::from(self.length)]
    }

    /// Its text.
    pub fn as_str(&self) -> &str {
        text(self.as_bytes())
    }
}

// Shown names are ASCII, so nothing is lost.
fn text(bytes: &[u8]) -> &str {
    std::str::from_utf8(bytes).unwrap_or("")
}

impl AsRef<[u8]> for Name {
    fn as_ref(&self) -> &[u8] {
        self.as_bytes()
    }
}

impl PartialEq<str> for Name {
    fn eq(&self, other: &str) -> bool {
        self.as_bytes() == other.as_bytes()
    }
}

impl PartialEq<&str> for Name {
    fn eq(&self, other: &&str) -> bool {
        self.as_bytes() == other.as_bytes()
    }
}

impl fmt::Debug for Name {
    fn fmt(&self, f: &mut fmt::Formatter<'_>) -> fmt::Result {
        fmt::Debug::fmt(self.as_str(), f)
    }
}

impl fmt::Display for Name {
    fn fmt(&self, f: &mut fmt::Formatter<'_>) -> fmt::Result {
        let mut shown = String::new();
        for c in self.as_str().chars() {
            if c.is_control() {
                shown.extend(c.escape_default());
            } else {
                shown.push(c);
            }
        }
        f.pad(&shown)
    }
}

/// A live entry of the catalog.
#[derive(Clone, Copy, Debug, PartialEq, Eq, Hash)]
#[non_exhaustive]
pub struct CatalogEntry {
    /// Where its first track/sector list stands.
    pub list: Location,
    /// Its type.
    pub kind: FileType,
    /// Whether it is locked.
    pub locked: bool,
    /// Its name, as it is shown: by this it is fetched. How it is cut: [`File::raw_name`].
    pub name: Name,
    /// Its sector count, as the entry states it.
    pub sectors: u16,
}

/// The 30 name bytes of an entry, as they are cut on the disk. None of them is 80h.
pub type RawName = [u8; 30];

/// A file: its entry in the catalog, its name as it is cut, and its bytes.
#[derive(Clone, Debug, PartialEq, Eq, Hash)]
#[non_exhaustive]
pub struct File {
    /// The entry.
    pub entry: CatalogEntry,
    /// The name bytes. `entry.name` is what they show.
    pub raw_name: RawName,
    /// The bytes. A file that is not Binary has none.
    pub bytes: Vec<u8>,
}

/// A side that saves to a disk which both use: [`DiskMut::save_for`](crate::DiskMut::save_for). A name that
/// begins with `S` (53h), as the catalog shows it, is the survey office's. Every other name is ours, and so
/// are `s`, an `S` behind a space and the empty name.
#[derive(Clone, Copy, Debug, PartialEq, Eq, Hash, PartialOrd, Ord)]
pub enum Side {
    /// We.
    Ours,
    /// The survey office.
    Survey,
}

impl Side {
    // As the raw calls take it.
    pub(crate) fn byte(self) -> u8 {
        match self {
            Side::Ours => 0,
            Side::Survey => 1,
        }
    }
}

/// The volume table of contents.
#[derive(Clone, Copy, Debug, PartialEq, Eq, Hash)]
#[non_exhaustive]
pub struct Vtoc {
    /// First catalog page: the catalog is read from here, on whatever track. One that is not on the disk is
    /// shown all the same; the calls that read the catalog refuse it as 3.
    pub catalog: Location,
    /// DOS release.
    pub release: u8,
    /// Volume byte.
    pub volume: u8,
    /// Stated maximum of pairs in a list. No call goes by it.
    pub pair_maximum: u8,
    /// Last track on which sectors were allocated.
    pub last_track: Track,
    /// Direction of allocation.
    pub direction: i8,
    /// Tracks: 35 or 40.
    pub tracks: u8,
    /// Sectors per track, as stated: 13 or 16, and 13 alone on a disk of 13 sectors a track. What a disk
    /// has is said by its length.
    pub sectors: u8,
    /// Stated bytes per sector.
    pub sector_size: u16,
    /// Free sectors, of 560 or of 455.
    pub free: u16,
    /// Used sectors: 560 or 455, less free.
    pub used: u16,
    /// 100 times used / all sectors, to the nearest number; exactly halfway, to the even one: 14 of 560 are
    /// 2 percent, 42 are 8.
    pub percent_used: u8,
}

/// A disk in seven numbers.
#[derive(Clone, Copy, Debug, PartialEq, Eq, Hash)]
#[non_exhaustive]
pub struct Survey {
    /// Volume byte.
    pub volume: u8,
    /// Live entries of the catalog.
    pub entries: u64,
    /// Free sectors, of 560 or of 455.
    pub free: u16,
    /// Used sectors.
    pub used: u16,
    /// Used in percent, as in [`Vtoc`].
    pub percent_used: u8,
    /// Blocks of the disk's archive. Over 4,096 the archive itself is refused.
    pub archive_blocks: u64,
    /// Sectors followed as links: catalog pages and all lists.
    pub links: u64,
}

/// How often the sectors of a disk are held, and what its map says of those that are.
///
/// A holder is the VTOC, a page of the catalog, a track/sector list or a data pair, each place counted: a
/// pair that a list names twice is two holders, and two entries with one list share it and all its data.
/// The first three numbers add up to the sectors of the disk, 560 or 455.
#[derive(Clone, Copy, Debug, PartialEq, Eq, Hash)]
#[non_exhaustive]
pub struct Holders {
    /// Sectors that no one holds. The map may call them free or used.
    pub unheld: u16,
    /// Sectors that exactly one holder has.
    pub held_once: u16,
    /// Sectors that more than one has.
    pub shared: u16,
    /// Held sectors that the map calls free, a shared one once.
    pub held_free: u16,
    /// Whether the disk is clean: no sector is shared, and the map calls no held one free.
    pub clean: bool,
}

/// What saves of given lengths will need: [`Disk::forecast`](crate::Disk::forecast). The sums are of the saves
/// that would be accepted; one that would end in [`Refusal::NoSpace`](crate::Refusal::NoSpace) needs nothing.
#[derive(Clone, Debug, PartialEq, Eq, Hash)]
#[non_exhaustive]
pub struct Forecast {
    /// Data sectors in all.
    pub data_sectors: u16,
    /// Sectors of track/sector lists in all.
    pub list_sectors: u16,
    /// Entry lines in all: one for each save that would be accepted.
    pub entry_lines: u16,
    /// For each length, whether its save would end in [`Refusal::NoSpace`](crate::Refusal::NoSpace).
    pub no_space: Vec<bool>,
}

impl Forecast {
    /// Whether every save would be accepted.
    pub fn all_go_on(&self) -> bool {
        !self.no_space.contains(&true)
    }
}
