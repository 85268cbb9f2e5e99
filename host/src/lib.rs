//! Apple DOS 3.3 and DOS 3.2 disks for displays and tools: catalog, files, nibble streams and archives; files
//! saved and deleted on DOS 3.3 disks.
//!
//! The work is done by functions that are proved to give what documents 01 and 02 define, on every input.
//! This crate lends them the space they need, and takes apart what they hand over. No call panics;
//! what cannot be done is a [`Refusal`].
//!
//! ```
//! use dos33::{binary_file, catalog_page, Archive, Disk, EntryRecord, FileType, Location, Sector, Track};
//!
//! // A disk with one Binary file: its list at 18/0, its only sector at 18/1.
//! let mut bytes = vec![0; dos33::DISK_SIZE];
//! let at = |track: usize, sector: usize| 4096 * track + 256 * sector;
//! bytes[at(17, 0) + 1..][..2].copy_from_slice(&[17, 15]); // first catalog page
//! bytes[at(17, 0) + 52] = 35;
//! bytes[at(17, 0) + 53] = 16;
//! let list = Location::new(Track(18), Sector(0));
//! let record = EntryRecord { list, kind: FileType::Binary, locked: false, name: b"LINE", sectors: 2 };
//! bytes[at(17, 15)..][..256].copy_from_slice(&catalog_page(&[], &[record])?);
//! bytes[at(18, 0) + 12..][..2].copy_from_slice(&[18, 1]);
//! let file = binary_file(FileType::Binary, 0x2000, 5, b"HELLO")?;
//! bytes[at(18, 1)..][..file.len()].copy_from_slice(&file);
//!
//! let disk = Disk::flat(&bytes);
//! assert_eq!(disk.catalog()?[0].name, "LINE");
//! assert_eq!(disk.fetch("LINE")?, b"HELLO");
//!
//! let bytes = disk.archive()?;
//! let archive = Archive::open(&bytes)?;
//! for entry in &archive {
//!     println!("{} has {} bytes", entry.name(), entry.len());
//!     for part in entry.data() {
//!         assert_eq!(part, b"HELLO"); // lent from the archive
//!     }
//! }
//! # assert_eq!(archive.entries().count(), 1);
//! # Ok::<(), dos33::Refusal>(())
//! ```
//!
//! # 16 and 13 sectors a track
//!
//! A flat disk's length alone says its edition: [`DISK_SIZE`] bytes are 16 sectors a track (DOS 3.3),
//! [`DISK_SIZE_13`] bytes are 13 (DOS 3.2). Every call on a [`Disk`] takes both, but
//! [`Disk::nibblize`] and [`Disk::forecast`], which refuse 13 as 1: such disks are read, not written. So do
//! the calls on a [`DiskMut`]. The archive is the same for the same contents on either.
//!
//! A stream's edition is said by the call and never guessed: [`Disk::nibbles`], [`denibblize`] and
//! [`stream_sector`] read 16, [`Disk::nibbles_13`], [`denibblize_13`] and [`stream_sector_13`] read 13.
//! A stream that both can read stands for two disks. Which address mark comes first in a stream is told
//! by [`recognize_prologue`].
//!
//! A name is asked for as it is shown. Two names that show alike may be cut differently on their disks, in
//! high bits or behind their last letter ([`File::raw_name`], [`ArchiveEntry::raw_name`]): then the
//! archives of the disks differ.
//!
//! | documents 01 and 02 | here |
//! |---|---|
//! | disc, roll, thread, load | [`Disk`], [`Disk::catalog`], [`Disk::lists`], [`Disk::file`], [`Disk::files`] |
//! | list, lent run of pairs | [`Disk::pairs`], [`Disk::pair_run`] |
//! | window, survey | [`Disk::sector`], [`Disk::survey`] |
//! | crossed threads | [`Disk::holders`], [`Disk::is_clean`] |
//! | saving, deleting | [`DiskMut::save`], [`DiskMut::delete`] |
//! | two sides on one disk | [`DiskMut::save_for`], [`DiskMut::delete_for`], [`Side`] |
//! | what saves will need | [`Disk::forecast`] |
//! | return | [`Disk::archive`], [`Disk::check`], [`Archive`] |
//! | unroll, nibble writer | [`denibblize`], [`denibblize_13`], [`nibblize`] |
//! | slip, number | [`Refusal`], [`Refusal::number`] |
//!
//! Costs to know. [`Archive::open`] and [`Archive::entry`] go as deep as the archive has blocks, so
//! they want 512 KiB of stack; a step of [`Archive::entries`] looks at one block alone. [`denibblize`]
//! and [`denibblize_13`], and so [`Disk::nibbles`] and [`Disk::nibbles_13`], want 160 KiB.
//! [`Disk::file`], [`Disk::fetch`] and [`Disk::lists`] judge every file of the disk at each call: for
//! all files in one go there is [`Disk::files`], but where the archive would have over 4,096 blocks, which
//! it refuses as [`Refusal::Overlong`]. [`stream_sector`] and [`stream_sector_13`] may take a time that
//! grows with the square of the stream's length.
//!
//! Later versions may add refusals, and fields to what is answered: [`Refusal`], [`CatalogEntry`],
//! [`File`], [`Vtoc`], [`Survey`], [`Holders`] and [`Forecast`] are `non_exhaustive`.
#![warn(missing_docs)]

mod archive;
mod disk;
mod disk_mut;
mod lend;
mod nibbles;
pub mod raw;
mod records;
mod refusal;
mod types;

pub use archive::{Archive, ArchiveEntry, Data, Entries};
pub use disk::Disk;
pub use disk_mut::DiskMut;
pub use nibbles::{
    denibblize, denibblize_13, encode_sector, format_from_data, nibblize, recognize_prologue,
    stream_sector, stream_sector_13, Key, Prologue,
};
pub use records::{binary_file, catalog_page, EntryRecord};
pub use refusal::Refusal;
pub use types::{
    CatalogEntry, File, FileType, Forecast, Holders, Location, Name, RawName, Sector, Side, Survey,
    Track, TrackSectorPair, Vtoc,
};

/// The tracks of a disk.
pub const TRACKS: usize = 35;

/// The sectors of a track on a DOS 3.3 disk.
pub const SECTORS_PER_TRACK: usize = 16;

/// The sectors of a track on a DOS 3.2 disk.
pub const SECTORS_PER_TRACK_13: usize = 13;

/// The bytes of a flat disk of 16 sectors a track: 143,360.
pub const DISK_SIZE: usize = 256 * SECTORS_PER_TRACK * TRACKS;

/// The bytes of a flat disk of 13 sectors a track: 116,480.
pub const DISK_SIZE_13: usize = 256 * SECTORS_PER_TRACK_13 * TRACKS;

/// The bytes of a stream that [`nibblize`] writes.
pub const STREAM_SIZE: usize = 232_960;

/// The most bytes that a save takes: [`DiskMut::save`], [`DiskMut::save_for`].
pub const SAVE_MOST: usize = 32_768;

/// The most lengths that a forecast takes: [`Disk::forecast`].
pub const PLAN_MOST: usize = 64;

/// The pairs that a track/sector list has at most: bytes 12 to 255 of its sector. So much space is
/// always enough for [`Disk::pair_run`].
pub const LIST_PAIRS: usize = 122;
