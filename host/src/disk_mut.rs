use crate::{lend, raw, Disk, Refusal, Side};

/// A flat disk to save to and to delete from. Its bytes are borrowed to be written, and changed in place; it
/// has 16 sectors a track ([`DISK_SIZE`](crate::DISK_SIZE) bytes). It is read as a [`Disk`], whenever
/// nothing is being saved: [`disk`](DiskMut::disk).
///
/// A refused call leaves every byte as it was. One that is accepted changes the VTOC, the page of the entry
/// and the sectors that a save takes, and nothing else. A clean disk stays clean. Each call judges the whole
/// disk first; nothing is kept between calls.
///
/// ```
/// use dos33::{DiskMut, Refusal};
///
/// // An empty disk: the VTOC, and two catalog pages. The map calls all free but track 0 and track 17.
/// let mut bytes = vec![0; dos33::DISK_SIZE];
/// let at = |track: usize, sector: usize| 4096 * track + 256 * sector;
/// let vtoc = at(17, 0);
/// bytes[vtoc + 1..][..2].copy_from_slice(&[17, 15]);
/// bytes[vtoc + 48..][..2].copy_from_slice(&[18, 1]); // last track, direction
/// bytes[vtoc + 52..][..2].copy_from_slice(&[35, 16]);
/// for track in (1..35).filter(|track| *track != 17) {
///     bytes[vtoc + 56 + 4 * track..][..2].fill(0xFF);
/// }
/// bytes[at(17, 15) + 1..][..2].copy_from_slice(&[17, 14]);
///
/// let mut disk = DiskMut::flat(&mut bytes);
/// disk.save("LINE 7", 0x2000, b"HELLO")?;
/// disk.save("LINE 8", 0x2000, &[7; 1000])?;
/// assert_eq!(disk.save("LINE 7", 0, b""), Err(Refusal::NameTaken));
/// assert_eq!(disk.disk().fetch("LINE 7")?, b"HELLO");
///
/// // A list and one data sector; a list and four.
/// let sectors: Vec<u16> = disk.disk().catalog()?.iter().map(|entry| entry.sectors).collect();
/// assert_eq!(sectors, [2, 5]);
///
/// // The line of a deleted entry is filled first.
/// disk.delete("LINE 7")?;
/// assert_eq!(disk.delete("LINE 7"), Err(Refusal::NotOnRoll));
/// disk.save("LINE 9", 0, b"")?;
/// let names: Vec<String> = disk.disk().catalog()?.iter().map(|entry| entry.name.to_string()).collect();
/// assert_eq!(names, ["LINE 9", "LINE 8"]);
/// assert!(disk.disk().is_clean()?);
/// # Ok::<(), Refusal>(())
/// ```
#[derive(Debug)]
pub struct DiskMut<'a> {
    bytes: &'a mut [u8],
}

impl<'a> DiskMut<'a> {
    /// A flat disk, tracks and DOS sectors in order. Nothing is judged here: each call refuses bytes of a
    /// wrong size as [`Refusal::OffSize`].
    pub fn flat(bytes: &'a mut [u8]) -> DiskMut<'a> {
        DiskMut { bytes }
    }

    /// The disk as it is now, to be read.
    pub fn disk(&self) -> Disk<'_> {
        Disk::flat(self.bytes)
    }

    /// Saves a Binary file, not locked. Its entry fills the first line of the catalog that is unused or
    /// deleted; no page is added. Its sectors are free ones, sought from the VTOC's last track on, none
    /// of them on track 0, on track 17 or on the track of the first catalog page. Data is at most
    /// [`SAVE_MOST`](crate::SAVE_MOST) bytes.
    ///
    /// The name is 1 to 30 bytes below 80h, none of them 0, with no space at its end: such a name is shown
    /// as it was given, and fetched by it.
    ///
    /// # Errors
    /// 1 to 6, 20, 14, 22, 21. A disk of 13 sectors a track is 1.
    pub fn save(
        &mut self,
        name: impl AsRef<[u8]>,
        address: u16,
        data: &[u8],
    ) -> Result<(), Refusal> {
        let name = name.as_ref();
        let (d, n) = (self.bytes.as_mut_ptr(), self.bytes.len());
        // SAFETY: the disk is lent to this call alone; name and data are lent for reading, and overlap it
        // nowhere, since it is borrowed to be written.
        lend::accepted(unsafe {
            raw::dos33_save(
                d,
                n,
                name.as_ptr(),
                name.len(),
                address,
                data.as_ptr(),
                data.len(),
            )
        })
    }

    /// Deletes the last entry with that name, as the catalog shows it: locked or not, of any type. Its lists
    /// and data sectors are free then, and their bytes stay.
    ///
    /// # Errors
    /// 1 to 6, 20, 14, 18. A disk of 13 sectors a track is 1. An entry whose name is shown empty or with a
    /// byte 0 cannot be deleted by this call: its name is 14.
    pub fn delete(&mut self, name: impl AsRef<[u8]>) -> Result<(), Refusal> {
        let name = name.as_ref();
        let (d, n) = (self.bytes.as_mut_ptr(), self.bytes.len());
        // SAFETY: as in `save`.
        lend::accepted(unsafe { raw::dos33_delete(d, n, name.as_ptr(), name.len()) })
    }

    /// Saves as [`save`](DiskMut::save) does, for one of two sides that share the disk. The name must be the
    /// side's own; [`Side`] says whose it is. `limit` is how many sectors the side may hold: those of its
    /// files, lists and data, counted along the lists, and those of this save must together not be over it.
    /// Just as many are within it.
    ///
    /// No call of a side changes a byte of the other's files, or an entry line in use by the other. A side
    /// that is within its limit, and gives the same with each call, stays within it.
    ///
    /// ```
    /// # use dos33::{DiskMut, Refusal, Side};
    /// # let mut bytes = vec![0; dos33::DISK_SIZE];
    /// # let vtoc = 17 * 4096;
    /// # bytes[vtoc + 1..][..2].copy_from_slice(&[17, 15]);
    /// # bytes[vtoc + 48..][..2].copy_from_slice(&[18, 1]);
    /// # bytes[vtoc + 52..][..2].copy_from_slice(&[35, 16]);
    /// # bytes[vtoc + 56 + 4 * 20..][..2].fill(0xFF);
    /// let mut disk = DiskMut::flat(&mut bytes);
    /// // Of the limit of 4 this takes 2, a list and a data sector. 253 bytes take 3, 252 take 2.
    /// disk.save_for(Side::Survey, 4, "S 1", 0x2000, b"HELLO")?;
    /// assert_eq!(disk.save_for(Side::Survey, 4, "S 2", 0, &[7; 253]), Err(Refusal::OverLimit));
    /// disk.save_for(Side::Survey, 4, "S 2", 0, &[7; 252])?;
    /// assert_eq!(disk.save_for(Side::Survey, 99, "LINE 7", 0, b""), Err(Refusal::OtherSide));
    /// disk.save_for(Side::Ours, 2, "LINE 7", 0, b"")?;
    /// assert_eq!(disk.delete_for(Side::Ours, 2, "S 1"), Err(Refusal::OtherSide));
    /// # Ok::<(), Refusal>(())
    /// ```
    ///
    /// # Errors
    /// 1 to 6, 20, 14, 23, 22, 24, 21. The sectors of a save are told by its length, whatever that is: more
    /// than [`SAVE_MOST`](crate::SAVE_MOST) bytes may be 24, and are 21 where the limit has room for them.
    pub fn save_for(
        &mut self,
        side: Side,
        limit: u64,
        name: impl AsRef<[u8]>,
        address: u16,
        data: &[u8],
    ) -> Result<(), Refusal> {
        let name = name.as_ref();
        let (d, n) = (self.bytes.as_mut_ptr(), self.bytes.len());
        // SAFETY: as in `save`.
        lend::accepted(unsafe {
            raw::dos33_save_for(
                d,
                n,
                side.byte(),
                limit,
                name.as_ptr(),
                name.len(),
                address,
                data.as_ptr(),
                data.len(),
            )
        })
    }

    /// Deletes as [`delete`](DiskMut::delete) does, for a side. The name must be its own. The limit is not
    /// looked at: what is over it can be deleted.
    ///
    /// # Errors
    /// 1 to 6, 20, 14, 23, 18.
    pub fn delete_for(
        &mut self,
        side: Side,
        limit: u64,
        name: impl AsRef<[u8]>,
    ) -> Result<(), Refusal> {
        let name = name.as_ref();
        let (d, n) = (self.bytes.as_mut_ptr(), self.bytes.len());
        // SAFETY: as in `save`.
        lend::accepted(unsafe {
            raw::dos33_delete_for(d, n, side.byte(), limit, name.as_ptr(), name.len())
        })
    }
}
