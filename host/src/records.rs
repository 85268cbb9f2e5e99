use crate::{lend, raw, CatalogEntry, FileType, Location, Refusal};

/// A catalog entry to write.
#[derive(Clone, Copy, Debug, PartialEq, Eq, Hash)]
pub struct EntryRecord<'a> {
    /// Where its first track/sector list stands.
    pub list: Location,
    /// Its type.
    pub kind: FileType,
    /// Whether it is locked.
    pub locked: bool,
    /// Its name: 1 to 30 bytes below 80h.
    pub name: &'a [u8],
    /// Its sector count.
    pub sectors: u16,
}

impl EntryRecord<'_> {
    /// The 35 bytes of the entry.
    ///
    /// # Errors
    /// 14 for a name that cannot be written.
    ///
    /// ```
    /// use dos33::{EntryRecord, FileType, Location, Sector, Track};
    ///
    /// let list = Location::new(Track(0x12), Sector(0x0F));
    /// let record = EntryRecord { list, kind: FileType::Binary, locked: true, name: b"A", sectors: 2 };
    /// let bytes = record.to_bytes()?;
    /// assert_eq!(bytes[..5], [0x12, 0x0F, 0x84, 0xC1, 0xA0]);
    /// assert_eq!(bytes[33..], [2, 0]);
    /// # Ok::<(), dos33::Refusal>(())
    /// ```
    pub fn to_bytes(&self) -> Result<[u8; 35], Refusal> {
        // SAFETY: slices of this function, the written ones its own.
        lend::array(|o, n, l| unsafe {
            raw::dos33_entry_record(
                self.list.track.0,
                self.list.sector.0,
                self.kind.code(),
                u8::from(self.locked),
                self.name.as_ptr(),
                self.name.len(),
                self.sectors,
                o,
                n,
                l,
            )
        })
    }

    // In the 37 bytes that a page is made from. An overlong name keeps a length over 30.
    fn listed(&self) -> [u8; 37] {
        let mut e = [0u8; 37];
        e[0] = self.list.track.0;
        e[1] = self.list.sector.0;
        e[2] = self.kind.code();
        e[3] = u8::from(self.locked);
        e[4] = u8::try_from(self.name.len()).unwrap_or(u8::MAX);
        let n = self.name.len().min(30);
        e[5..5 + n].copy_from_slice(&self.name[..n]);
        e[35..].copy_from_slice(&self.sectors.to_le_bytes());
        e
    }
}

impl<'a> From<&'a CatalogEntry> for EntryRecord<'a> {
    fn from(e: &'a CatalogEntry) -> EntryRecord<'a> {
        EntryRecord {
            list: e.list,
            kind: e.kind,
            locked: e.locked,
            name: e.name.as_bytes(),
            sectors: e.sectors,
        }
    }
}

/// The 256 bytes of a catalog page. `header` is its bytes 0 to 10, of which 1 and 2 are the next page; what
/// it is short of is zero, what it has too much is not read. Entries that are not there are zero.
///
/// # Errors
/// 16 for over 7 entries, then 14 for a name that cannot be written.
///
/// ```
/// let page = dos33::catalog_page(&[0, 17, 14], &[])?;
/// assert_eq!(page[..3], [0, 17, 14]);
/// assert_eq!(page[3..], [0; 253]);
/// # Ok::<(), dos33::Refusal>(())
/// ```
pub fn catalog_page(header: &[u8], entries: &[EntryRecord<'_>]) -> Result<[u8; 256], Refusal> {
    // Eight are too many as well as more are.
    let listed: Vec<u8> = entries
        .iter()
        .take(8)
        .flat_map(EntryRecord::listed)
        .collect();
    // SAFETY: as in `to_bytes`.
    lend::array(|o, n, l| unsafe {
        raw::dos33_catalog_page(
            header.as_ptr(),
            header.len(),
            listed.as_ptr(),
            listed.len(),
            o,
            n,
            l,
        )
    })
}

/// The bytes of a Binary file as its sectors hold them: address, size as given, data.
///
/// # Errors
/// 15 for another type.
///
/// ```
/// use dos33::{binary_file, FileType, Refusal};
///
/// assert_eq!(binary_file(FileType::Binary, 0x0803, 2, &[7, 8])?, [3, 8, 2, 0, 7, 8]);
/// assert_eq!(binary_file(FileType::Text, 0, 0, &[]), Err(Refusal::NotBinary));
/// # Ok::<(), Refusal>(())
/// ```
pub fn binary_file(
    kind: FileType,
    address: u16,
    size: u16,
    data: &[u8],
) -> Result<Vec<u8>, Refusal> {
    // SAFETY: as in `to_bytes`.
    lend::bytes(data.len() + 4, |o, n, l| unsafe {
        raw::dos33_binary_file(
            kind.code(),
            address,
            size,
            data.as_ptr(),
            data.len(),
            o,
            n,
            l,
        )
    })
}
