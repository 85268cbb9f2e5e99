use crate::types::locations;
use crate::{
    denibblize, denibblize_13, lend, nibblize, raw, Archive, ArchiveEntry, CatalogEntry, File,
    FileType, Forecast, Holders, Location, Name, Refusal, Sector, Survey, Track, TrackSectorPair,
    Vtoc, LIST_PAIRS, PLAN_MOST, SECTORS_PER_TRACK, TRACKS,
};

// The most that each call can need. A disk of 13 sectors a track has less of everything.
const SECTORS_MOST: usize = SECTORS_PER_TRACK * TRACKS;
const CATALOG_MOST: usize = 37 * 7 * SECTORS_MOST;
const LISTS_MOST: usize = 2 * SECTORS_MOST;
const PAIRS_MOST: usize = 2 * LIST_PAIRS;
// A length of 65,535 at most, or all of 256 sectors at most: with one sector more every length fits.
const FILE_MOST: usize = 65_536;
const ARCHIVE_MOST: usize = 256 * 4096;

/// A disk: a flat image that is borrowed, or the image of a nibble stream. It has 16 sectors a track
/// ([`DISK_SIZE`](crate::DISK_SIZE) bytes) or 13 ([`DISK_SIZE_13`](crate::DISK_SIZE_13)).
///
/// ```
/// use dos33::{Disk, Sector, Track};
///
/// // An empty disk of volume 254.
/// let mut bytes = vec![0; dos33::DISK_SIZE];
/// let vtoc = 17 * 4096;
/// bytes[vtoc + 1..][..2].copy_from_slice(&[17, 15]); // first catalog page
/// bytes[vtoc + 6] = 254;
/// bytes[vtoc + 52] = 35;
/// bytes[vtoc + 53] = 16;
///
/// let disk = Disk::flat(&bytes);
/// assert_eq!(disk.vtoc()?.volume, 254);
/// assert!(disk.catalog()?.is_empty());
/// assert_eq!(disk.sector(Track(17), Sector(0))?[52], 35);
///
/// // The same disk as nibbles has the same archive.
/// let stream = disk.nibblize()?;
/// let other = Disk::nibbles(&stream)?;
/// other.check(&disk.archive()?)?;
/// # Ok::<(), dos33::Refusal>(())
/// ```
#[derive(Clone, Debug)]
pub struct Disk<'a> {
    image: Image<'a>,
}

#[derive(Clone, Debug)]
enum Image<'a> {
    Flat(&'a [u8]),
    Unrolled(Vec<u8>),
}

impl<'a> Disk<'a> {
    /// A flat disk, tracks and DOS sectors in order. Nothing is copied or judged here: each call
    /// refuses bytes of a wrong size as [`Refusal::OffSize`].
    pub fn flat(bytes: &'a [u8]) -> Disk<'a> {
        Disk {
            image: Image::Flat(bytes),
        }
    }

    /// The disk of a nibble stream of 16 sectors a track, which is denibblized here, once.
    ///
    /// # Errors
    /// 8, 11, 9, 10, in this order.
    pub fn nibbles(stream: &[u8]) -> Result<Disk<'static>, Refusal> {
        Ok(Disk {
            image: Image::Unrolled(denibblize(stream)?),
        })
    }

    /// The disk of a nibble stream of 13 sectors a track, which is denibblized here, once.
    ///
    /// The caller says which of the two a stream is; nothing is guessed. One that both calls accept
    /// stands for two disks, one for each. [`recognize_prologue`](crate::recognize_prologue) tells which
    /// address mark comes first:
    ///
    /// ```
    /// use dos33::{recognize_prologue, Disk, Prologue, Refusal};
    ///
    /// fn disk(stream: &[u8]) -> Result<Disk<'static>, Refusal> {
    ///     match recognize_prologue(stream) {
    ///         Some(Prologue::ThirteenSectors) => Disk::nibbles_13(stream),
    ///         _ => Disk::nibbles(stream),
    ///     }
    /// }
    ///
    /// let stream = dos33::nibblize(&[0; dos33::DISK_SIZE])?;
    /// assert_eq!(disk(&stream)?.bytes().len(), dos33::DISK_SIZE);
    /// assert_eq!(Disk::nibbles_13(&stream).unwrap_err(), Refusal::Absent);
    /// # Ok::<(), Refusal>(())
    /// ```
    ///
    /// # Errors
    /// 8, 11, 9, 10, in this order.
    pub fn nibbles_13(stream: &[u8]) -> Result<Disk<'static>, Refusal> {
        Ok(Disk {
            image: Image::Unrolled(denibblize_13(stream)?),
        })
    }

    /// The flat bytes: those handed in, or those of the stream.
    pub fn bytes(&self) -> &[u8] {
        match &self.image {
            Image::Flat(bytes) => bytes,
            Image::Unrolled(bytes) => bytes,
        }
    }

    /// The live entries of the catalog, in order. Its first page is where the VTOC says
    /// ([`Vtoc::catalog`]), on any track.
    ///
    /// # Errors
    /// 1, 2, then page by page 3, 4, 6.
    pub fn catalog(&self) -> Result<Vec<CatalogEntry>, Refusal> {
        let d = self.bytes();
        // SAFETY: slices of this function, the written ones its own.
        let roll = lend::space(CATALOG_MOST, |o, n, l| unsafe {
            raw::dos33_catalog(d.as_ptr(), d.len(), o, n, l)
        })?;
        Ok(roll.chunks_exact(37).map(entry).collect())
    }

    /// The bytes of entry number `index` of the catalog, from 0. A file that is not Binary has none,
    /// nor has a number past the catalog. Every file of the disk is judged, whichever is asked for: who
    /// wants them all takes [`files`](Disk::files).
    ///
    /// # Errors
    /// 1 to 6.
    pub fn file(&self, index: usize) -> Result<Vec<u8>, Refusal> {
        let d = self.bytes();
        // SAFETY: as in `catalog`.
        lend::bytes(FILE_MOST, |o, n, l| unsafe {
            raw::dos33_file(d.as_ptr(), d.len(), index as u64, o, n, l)
        })
    }

    /// Every entry of the catalog with its bytes, in order: what [`catalog`](Disk::catalog) and then
    /// [`file`](Disk::file) of each give. It costs the catalog and the archive, not a pass over the disk
    /// for each file.
    ///
    /// The archive is written and stepped through. So a disk whose archive would have over 4,096 blocks is
    /// refused as [`Refusal::Overlong`]; `catalog`, `file` and [`fetch`](Disk::fetch) serve it.
    ///
    /// ```
    /// use dos33::{binary_file, catalog_page, Disk, EntryRecord, FileType, Location, Sector, Track};
    ///
    /// // Two Binary files. Each has its list in sector 0 of a track, and its bytes in sector 1.
    /// let mut bytes = vec![0; dos33::DISK_SIZE];
    /// let at = |track: usize, sector: usize| 4096 * track + 256 * sector;
    /// bytes[at(17, 0) + 1..][..2].copy_from_slice(&[17, 15]);
    /// bytes[at(17, 0) + 52] = 35;
    /// bytes[at(17, 0) + 53] = 16;
    /// let record = |track: u8, name| EntryRecord {
    ///     list: Location::new(Track(track), Sector(0)),
    ///     kind: FileType::Binary,
    ///     locked: false,
    ///     name,
    ///     sectors: 2,
    /// };
    /// let page = catalog_page(&[], &[record(18, b"LINE"), record(19, b"WAY")])?;
    /// bytes[at(17, 15)..][..256].copy_from_slice(&page);
    /// for (track, data) in [(18, b"HELLO"), (19, b"THERE")] {
    ///     bytes[at(track, 0) + 12..][..2].copy_from_slice(&[track as u8, 1]);
    ///     let file = binary_file(FileType::Binary, 0x2000, 5, data)?;
    ///     bytes[at(track, 1)..][..file.len()].copy_from_slice(&file);
    /// }
    ///
    /// let files = Disk::flat(&bytes).files()?;
    /// assert_eq!(files.len(), 2);
    /// assert_eq!((files[0].entry.name.as_str(), &files[0].bytes[..]), ("LINE", &b"HELLO"[..]));
    /// assert_eq!((files[1].entry.name.as_str(), &files[1].bytes[..]), ("WAY", &b"THERE"[..]));
    /// # Ok::<(), dos33::Refusal>(())
    /// ```
    ///
    /// # Errors
    /// 1 to 6, 7.
    pub fn files(&self) -> Result<Vec<File>, Refusal> {
        let entries = self.catalog()?;
        let archive = self.write_archive()?;
        paired(entries, Archive::written(&archive).entries())
    }

    /// The bytes of the last entry with that name, as the catalog shows it.
    ///
    /// # Errors
    /// 1 to 6, 18.
    pub fn fetch(&self, name: impl AsRef<[u8]>) -> Result<Vec<u8>, Refusal> {
        let d = self.bytes();
        let name = name.as_ref();
        // SAFETY: as in `catalog`.
        lend::bytes(FILE_MOST, |o, n, l| unsafe {
            raw::dos33_fetch(d.as_ptr(), d.len(), name.as_ptr(), name.len(), o, n, l)
        })
    }

    /// The track/sector lists of entry number `index`, in order; none for a number past the catalog.
    ///
    /// # Errors
    /// 1 to 6.
    pub fn lists(&self, index: usize) -> Result<Vec<Location>, Refusal> {
        let d = self.bytes();
        // SAFETY: as in `catalog`.
        let run = lend::space(LISTS_MOST, |o, n, l| unsafe {
            raw::dos33_lists(d.as_ptr(), d.len(), index as u64, o, n, l)
        })?;
        Ok(locations(&run))
    }

    /// The pairs of the track/sector list at a location, up to the first with track 0. They are not
    /// followed: each may be off the disk.
    ///
    /// # Errors
    /// 1, 3.
    pub fn pairs(&self, track: Track, sector: Sector) -> Result<Vec<Location>, Refusal> {
        let d = self.bytes();
        // SAFETY: as in `catalog`.
        let run = lend::space(PAIRS_MOST, |o, n, l| unsafe {
            raw::dos33_pairs(d.as_ptr(), d.len(), track.0, sector.0, o, n, l)
        })?;
        Ok(locations(&run))
    }

    /// The same pairs, put into the front of a lent run, and their number. What lies past them in the
    /// run stays as it was, and under a refusal all of it does. [`LIST_PAIRS`](crate::LIST_PAIRS) pairs
    /// are always enough.
    ///
    /// ```
    /// use dos33::{Disk, Sector, Track, TrackSectorPair};
    ///
    /// // A list of two pairs at 18/15.
    /// let mut bytes = vec![0; dos33::DISK_SIZE];
    /// let list = 4096 * 18 + 256 * 15;
    /// bytes[list + 12..list + 16].copy_from_slice(&[18, 1, 18, 2]);
    ///
    /// let mut run = [TrackSectorPair::default(); dos33::LIST_PAIRS];
    /// let n = Disk::flat(&bytes).pair_run(Track(18), Sector(15), &mut run)?;
    /// assert_eq!(n, 2);
    /// assert_eq!(run[1], TrackSectorPair { track_number: 18, sector_number: 2 });
    /// # Ok::<(), dos33::Refusal>(())
    /// ```
    ///
    /// # Errors
    /// 1, 3, 12.
    pub fn pair_run(
        &self,
        track: Track,
        sector: Sector,
        run: &mut [TrackSectorPair],
    ) -> Result<usize, Refusal> {
        let d = self.bytes();
        let mut length = 0u64;
        let (p, n) = (run.as_mut_ptr(), run.len());
        // SAFETY: the disk is lent for reading, the run is lent to this call alone, the length is its
        // own.
        lend::accepted(unsafe {
            raw::dos33_pair_run(d.as_ptr(), d.len(), track.0, sector.0, p, n, &mut length)
        })?;
        Ok(length as usize)
    }

    /// The bytes of a sector.
    ///
    /// # Errors
    /// 1, 3.
    pub fn sector(&self, track: Track, sector: Sector) -> Result<[u8; 256], Refusal> {
        let (d, i, flat): (&[u8], &[u8], u8) = match &self.image {
            Image::Flat(bytes) => (bytes, &[], 1),
            Image::Unrolled(bytes) => (&[], bytes, 0),
        };
        // SAFETY: as in `catalog`.
        lend::array(|o, n, l| unsafe {
            raw::dos33_window(
                d.as_ptr(),
                d.len(),
                i.as_ptr(),
                i.len(),
                flat,
                track.0,
                sector.0,
                o,
                n,
                l,
            )
        })
    }

    /// The volume table of contents.
    ///
    /// # Errors
    /// 1, 2.
    pub fn vtoc(&self) -> Result<Vtoc, Refusal> {
        let d = self.bytes();
        // SAFETY: as in `catalog`.
        let f: [u64; 13] =
            lend::numbers(|p, n| unsafe { raw::dos33_vtoc(d.as_ptr(), d.len(), p, n) })?;
        Ok(Vtoc {
            catalog: Location::new(Track(f[0] as u8), Sector(f[1] as u8)),
            release: f[2] as u8,
            volume: f[3] as u8,
            pair_maximum: f[4] as u8,
            last_track: Track(f[5] as u8),
            direction: f[6] as u8 as i8,
            tracks: f[7] as u8,
            sectors: f[8] as u8,
            sector_size: f[9] as u16,
            free: f[10] as u16,
            used: f[11] as u16,
            percent_used: f[12] as u8,
        })
    }

    /// The disk in seven numbers. All of it is judged, as the archive is, but for its length.
    ///
    /// # Errors
    /// 1 to 6.
    pub fn survey(&self) -> Result<Survey, Refusal> {
        let d = self.bytes();
        // SAFETY: as in `catalog`.
        let f: [u64; 7] =
            lend::numbers(|p, n| unsafe { raw::dos33_survey(d.as_ptr(), d.len(), p, n) })?;
        Ok(Survey {
            volume: f[0] as u8,
            entries: f[1],
            free: f[2] as u16,
            used: f[3] as u16,
            percent_used: f[4] as u8,
            archive_blocks: f[5],
            links: f[6],
        })
    }

    /// How often the sectors are held, by the VTOC, pages, lists and data pairs, and how many held ones the
    /// map calls free.
    ///
    /// ```
    /// use dos33::{catalog_page, Disk, EntryRecord, FileType, Location, Sector, Track};
    ///
    /// // Two files. Each has its list in sector 0 of a track, and its bytes in sector 1. The map calls no
    /// // sector free.
    /// let mut bytes = vec![0; dos33::DISK_SIZE];
    /// let at = |track: usize, sector: usize| 4096 * track + 256 * sector;
    /// bytes[at(17, 0) + 1..][..2].copy_from_slice(&[17, 15]);
    /// bytes[at(17, 0) + 52] = 35;
    /// bytes[at(17, 0) + 53] = 16;
    /// let record = |track: u8, name| EntryRecord {
    ///     list: Location::new(Track(track), Sector(0)),
    ///     kind: FileType::Binary,
    ///     locked: false,
    ///     name,
    ///     sectors: 2,
    /// };
    /// let page = catalog_page(&[], &[record(18, b"LINE"), record(19, b"WAY")])?;
    /// bytes[at(17, 15)..][..256].copy_from_slice(&page);
    /// bytes[at(18, 0) + 12..][..2].copy_from_slice(&[18, 1]);
    /// bytes[at(19, 0) + 12..][..2].copy_from_slice(&[19, 1]);
    ///
    /// // The VTOC, a page, two lists, two data sectors, and each is held once: the disk is clean.
    /// let holders = Disk::flat(&bytes).holders()?;
    /// assert_eq!((holders.unheld, holders.held_once, holders.shared), (554, 6, 0));
    /// assert!(holders.clean && holders.held_free == 0);
    ///
    /// // The second list now names the first file's sector. 18/1 is shared, and 19/1 is held by no one.
    /// bytes[at(19, 0) + 12] = 18;
    /// let holders = Disk::flat(&bytes).holders()?;
    /// assert_eq!((holders.unheld, holders.held_once, holders.shared), (555, 4, 1));
    /// assert!(!holders.clean);
    /// # Ok::<(), dos33::Refusal>(())
    /// ```
    ///
    /// # Errors
    /// 1 to 6.
    pub fn holders(&self) -> Result<Holders, Refusal> {
        let d = self.bytes();
        // SAFETY: as in `catalog`.
        let f: [u64; 5] =
            lend::numbers(|p, n| unsafe { raw::dos33_holders(d.as_ptr(), d.len(), p, n) })?;
        Ok(Holders {
            unheld: f[0] as u16,
            held_once: f[1] as u16,
            shared: f[2] as u16,
            held_free: f[3] as u16,
            clean: f[4] != 0,
        })
    }

    /// Whether no sector is held by more than one, and the map calls no held one free: [`Holders::clean`].
    /// What the map says of sectors that no one holds does not matter.
    ///
    /// # Errors
    /// 1 to 6.
    pub fn is_clean(&self) -> Result<bool, Refusal> {
        Ok(self.holders()?.clean)
    }

    /// Will it go on? What saves of these lengths, one after the other, will need, without writing: up to
    /// [`PLAN_MOST`](crate::PLAN_MOST) lengths, in bytes of data. Names are taken as new and allowed. A save
    /// that would end in [`Refusal::NoSpace`] needs nothing, and those behind it are told as if it had not
    /// been. [`DiskMut::save`](crate::DiskMut::save) with files of these lengths does just so.
    ///
    /// ```
    /// use dos33::{Disk, DiskMut, Refusal};
    ///
    /// // A disk with one page, and six free sectors on track 20.
    /// let mut bytes = vec![0; dos33::DISK_SIZE];
    /// let vtoc = 4096 * 17;
    /// bytes[vtoc + 1..][..2].copy_from_slice(&[17, 15]);
    /// bytes[vtoc + 48..][..2].copy_from_slice(&[18, 1]); // last track, direction
    /// bytes[vtoc + 52..][..2].copy_from_slice(&[35, 16]);
    /// bytes[vtoc + 56 + 4 * 20] = 0xFC;
    ///
    /// // A list and one data sector; too much; a list and three.
    /// let forecast = Disk::flat(&bytes).forecast(&[200, 1000, 600])?;
    /// assert_eq!(forecast.no_space, [false, true, false]);
    /// assert_eq!((forecast.data_sectors, forecast.list_sectors, forecast.entry_lines), (4, 2, 2));
    /// assert!(!forecast.all_go_on());
    ///
    /// // The saves do so.
    /// let mut disk = DiskMut::flat(&mut bytes);
    /// assert_eq!(disk.save("A", 0, &[1; 200]), Ok(()));
    /// assert_eq!(disk.save("B", 0, &[2; 1000]), Err(Refusal::NoSpace));
    /// assert_eq!(disk.save("C", 0, &[3; 600]), Ok(()));
    /// # Ok::<(), Refusal>(())
    /// ```
    ///
    /// # Errors
    /// 25, 1 to 6, 20. A disk of 13 sectors a track is 1.
    pub fn forecast(&self, lengths: &[u64]) -> Result<Forecast, Refusal> {
        let d = self.bytes();
        let (l, k) = (lengths.as_ptr(), lengths.len());
        // SAFETY: as in `catalog`.
        let f: [u64; 3 + PLAN_MOST] =
            lend::numbers(|p, n| unsafe { raw::dos33_forecast(d.as_ptr(), d.len(), l, k, p, n) })?;
        Ok(Forecast {
            data_sectors: f[0] as u16,
            list_sectors: f[1] as u16,
            entry_lines: f[2] as u16,
            no_space: f[3..].iter().take(k).map(|mark| *mark != 0).collect(),
        })
    }

    /// The disk's archive; [`Archive::open`](crate::Archive::open) steps through it.
    ///
    /// # Errors
    /// 1 to 6, 7.
    pub fn archive(&self) -> Result<Vec<u8>, Refusal> {
        let mut bytes = self.write_archive()?;
        bytes.shrink_to_fit();
        Ok(bytes)
    }

    // The archive, with the room behind it that was lent.
    fn write_archive(&self) -> Result<Vec<u8>, Refusal> {
        let d = self.bytes();
        // SAFETY: as in `catalog`.
        lend::space(ARCHIVE_MOST, |o, n, l| unsafe {
            raw::dos33_archive_write(d.as_ptr(), d.len(), o, n, l)
        })
    }

    /// Accepted exactly where `archive` is this disk's archive, to the last byte.
    ///
    /// # Errors
    /// 1 to 6, 7, 13.
    pub fn check(&self, archive: &[u8]) -> Result<(), Refusal> {
        let d = self.bytes();
        // SAFETY: both slices are lent for reading alone.
        lend::accepted(unsafe {
            raw::dos33_archive_check(d.as_ptr(), d.len(), archive.as_ptr(), archive.len())
        })
    }

    /// The disk as a nibble stream of 232,960 bytes, with the VTOC's volume. Streams of 13 sectors a
    /// track are not written.
    ///
    /// # Errors
    /// 1, also for a disk of 13 sectors a track.
    pub fn nibblize(&self) -> Result<Vec<u8>, Refusal> {
        nibblize(self.bytes())
    }
}

// An entry in the 37 bytes of the catalog call.
fn entry(e: &[u8]) -> CatalogEntry {
    CatalogEntry {
        list: Location::new(Track(e[0]), Sector(e[1])),
        kind: FileType::from_code(e[2]),
        locked: e[3] != 0,
        name: Name::shown(&e[5..35], e[4]),
        sectors: u16::from_le_bytes([e[35], e[36]]),
    }
}

// The entry of the catalog and that of the archive are one.
fn same(entry: &CatalogEntry, step: &ArchiveEntry<'_>) -> bool {
    entry.name == step.name()
        && entry.kind == step.kind()
        && entry.locked == step.locked()
        && entry.sectors == step.sectors()
}

// The files of a catalog, with the bytes of the archive. Where the two differ, the archive is not this disk's.
fn paired<'a>(
    entries: Vec<CatalogEntry>,
    mut steps: impl Iterator<Item = ArchiveEntry<'a>>,
) -> Result<Vec<File>, Refusal> {
    let mut files = Vec::with_capacity(entries.len());
    for entry in entries {
        let step = steps.next().filter(|step| same(&entry, step));
        let step = step.ok_or(Refusal::NotItsReturn)?;
        files.push(File {
            entry,
            raw_name: *step.raw_name(),
            bytes: step.to_vec(),
        });
    }
    match steps.next() {
        None => Ok(files),
        Some(_) => Err(Refusal::NotItsReturn),
    }
}

#[cfg(test)]
mod tests {
    use super::*;
    use crate::{catalog_page, EntryRecord, DISK_SIZE};

    // A disk of three entries without bytes.
    fn disk() -> Result<Vec<u8>, Refusal> {
        let mut bytes = vec![0; DISK_SIZE];
        let vtoc = 17 * 4096;
        bytes[vtoc + 1..][..2].copy_from_slice(&[17, 15]);
        bytes[vtoc + 52..][..2].copy_from_slice(&[35, 16]);
        let record = |name, kind, locked, sectors| EntryRecord {
            list: Location::new(Track(18), Sector(15)),
            kind,
            locked,
            name,
            sectors,
        };
        let page = catalog_page(
            &[],
            &[
                record(b"LINE 7", FileType::Binary, true, 5),
                record(b"NOTES", FileType::Text, false, 2),
                record(b"LINE 7", FileType::Binary, false, 3),
            ],
        )?;
        bytes[vtoc + 15 * 256..][..256].copy_from_slice(&page);
        Ok(bytes)
    }

    #[test]
    fn a_catalog_and_the_archive_of_another_disk() -> Result<(), Refusal> {
        let bytes = disk()?;
        let disk = Disk::flat(&bytes);
        let entries = disk.catalog()?;
        let archive = disk.archive()?;
        let steps = || Archive::written(&archive).entries();
        let files = paired(entries.clone(), steps())?;
        assert_eq!(files, disk.files()?);
        assert_eq!(files.len(), 3);

        // One fewer on either side, and none.
        let other = Err(Refusal::NotItsReturn);
        assert_eq!(paired(entries[..2].to_vec(), steps()), other);
        assert_eq!(paired(entries.clone(), steps().take(2)), other);
        assert_eq!(paired(Vec::new(), steps()), other);
        assert_eq!(paired(entries.clone(), steps().take(0)), other);
        // Each in which an entry can differ, at each entry.
        let changes: [fn(&mut CatalogEntry); 4] = [
            |e| e.name = Name::shown(b"LINE 8", 6),
            |e| e.kind = FileType::Unknown,
            |e| e.locked = !e.locked,
            |e| e.sectors += 1,
        ];
        for change in changes {
            for k in 0..3 {
                let mut entries = entries.clone();
                change(&mut entries[k]);
                assert_eq!(paired(entries, steps()), other);
            }
        }
        // Another order of the same.
        let turned = entries.iter().rev().copied().collect();
        assert_eq!(paired(turned, steps()), other);
        Ok(())
    }
}
