use std::iter::FusedIterator;

use crate::{lend, raw, FileType, Name, RawName, Refusal};

/// An archive that was opened: the contents of a disk in blocks of 256 bytes. It is lent, not copied.
///
/// ```
/// use dos33::{Archive, Refusal};
///
/// // The archive of an empty disk of volume 254.
/// let mut bytes = [0; 256];
/// bytes[0] = 254;
/// bytes[3] = 1;
/// let archive = Archive::open(&bytes)?;
/// assert_eq!(archive.volume(), 254);
/// assert_eq!(archive.entries().count(), 0);
///
/// assert_eq!(Archive::open(b"no archive").unwrap_err(), Refusal::NotItsReturn);
/// # Ok::<(), Refusal>(())
/// ```
#[derive(Clone, Copy, Debug)]
pub struct Archive<'a> {
    bytes: &'a [u8],
    volume: u8,
    first: u64,
    blocks: usize,
}

impl<'a> Archive<'a> {
    /// Opens an archive. No disk is needed.
    ///
    /// This goes as deep as there are blocks, and so does [`entry`](Archive::entry): in a thread of your
    /// own, give it 512 KiB of stack or more. (Rust's threads have 2 MiB.)
    ///
    /// # Errors
    /// 13 for bytes that are the archive of no contents.
    pub fn open(bytes: &'a [u8]) -> Result<Archive<'a>, Refusal> {
        // SAFETY: the archive is lent for reading, the numbers are this call's own.
        let f: [u64; 3] = lend::numbers(|p, n| unsafe {
            raw::dos33_archive_open(bytes.as_ptr(), bytes.len(), p, n)
        })?;
        Ok(Archive {
            bytes,
            volume: f[0] as u8,
            first: f[1],
            blocks: f[2] as usize,
        })
    }

    // Of bytes that the writer has just handed over, which opening would not refuse: block 0 has the
    // volume and the first entry block.
    pub(crate) fn written(bytes: &'a [u8]) -> Archive<'a> {
        let byte = |i: usize| bytes.get(i).copied().unwrap_or(0);
        Archive {
            bytes,
            volume: byte(0),
            first: u64::from(u16::from_le_bytes([byte(1), byte(2)])),
            blocks: bytes.len() / 256,
        }
    }

    /// The volume byte.
    pub fn volume(&self) -> u8 {
        self.volume
    }

    /// The number of blocks, at most 4,096.
    pub fn blocks(&self) -> usize {
        self.blocks
    }

    /// The bytes that were opened.
    pub fn bytes(&self) -> &'a [u8] {
        self.bytes
    }

    /// The entries, each once and in order. A step looks at one block alone.
    pub fn entries(&self) -> Entries<'a> {
        Entries {
            bytes: self.bytes,
            block: self.first,
        }
    }

    /// The entry whose entry block is `block` ([`ArchiveEntry::block`]); none for any other number.
    ///
    /// The library opens the archive again for it: about a millisecond where it has 4,096 blocks.
    /// [`entries`](Archive::entries) is the way through all of them.
    pub fn entry(&self, block: u64) -> Option<ArchiveEntry<'a>> {
        let s = self.bytes;
        // SAFETY: the archive is lent for reading, the numbers are this call's own.
        // Opened bytes that are still lent are never refused.
        let f = lend::numbers(|p, n| unsafe {
            raw::dos33_archive_entry(s.as_ptr(), s.len(), block, p, n)
        });
        ArchiveEntry::shown(s, block, f.ok()?)
    }
}

impl<'a> IntoIterator for Archive<'a> {
    type Item = ArchiveEntry<'a>;
    type IntoIter = Entries<'a>;

    fn into_iter(self) -> Entries<'a> {
        self.entries()
    }
}

impl<'a> IntoIterator for &Archive<'a> {
    type Item = ArchiveEntry<'a>;
    type IntoIter = Entries<'a>;

    fn into_iter(self) -> Entries<'a> {
        self.entries()
    }
}

/// The entries of an archive: [`Archive::entries`].
#[derive(Clone, Debug)]
pub struct Entries<'a> {
    bytes: &'a [u8],
    // The entry block that is next; 0 at the end.
    block: u64,
}

impl<'a> Iterator for Entries<'a> {
    type Item = ArchiveEntry<'a>;

    fn next(&mut self) -> Option<ArchiveEntry<'a>> {
        if self.block == 0 {
            return None;
        }
        let (s, block) = (self.bytes, self.block);
        self.block = 0;
        // SAFETY: the archive is lent for reading, the numbers are this call's own.
        // The block is one that opening or the step before gave.
        let f: [u64; 8] = lend::numbers(|p, n| unsafe {
            raw::dos33_archive_step(s.as_ptr(), s.len(), block, p, n)
        })
        .ok()?;
        self.block = f[1];
        ArchiveEntry::shown(s, block, f)
    }
}

impl FusedIterator for Entries<'_> {}

/// An entry of an archive. Its name as it is cut and its data are lent from the archive.
#[derive(Clone, Copy, Debug)]
pub struct ArchiveEntry<'a> {
    bytes: &'a [u8],
    block: u64,
    first: usize,
    kind: FileType,
    locked: bool,
    name: &'a [u8],
    raw_name: &'a RawName,
    sectors: u16,
    length: usize,
}

impl<'a> ArchiveEntry<'a> {
    // From the eight numbers of a step; none at the end.
    fn shown(bytes: &'a [u8], block: u64, f: [u64; 8]) -> Option<ArchiveEntry<'a>> {
        if f[0] == 0 {
            return None;
        }
        let at = 256 * block as usize;
        let name = at + 7;
        Some(ArchiveEntry {
            bytes,
            block,
            first: f[2] as usize,
            kind: FileType::from_code(f[3] as u8),
            locked: f[4] != 0,
            name: bytes.get(name..name + f[5] as usize)?,
            raw_name: bytes.get(at + 42..)?.first_chunk()?,
            sectors: f[6] as u16,
            length: f[7] as usize,
        })
    }

    /// Its entry block: a number to keep for [`Archive::entry`].
    pub fn block(&self) -> u64 {
        self.block
    }

    /// The name as it is shown. It may hold control characters, which are escaped where it is printed.
    pub fn name(&self) -> Name {
        Name::shown(self.name, self.name.len() as u8)
    }

    /// The name as it is cut: its 30 bytes on the disk. Two names that show alike may differ here, in high
    /// bits or in what stands behind the last letter; then the contents of their disks differ.
    pub fn raw_name(&self) -> &'a RawName {
        self.raw_name
    }

    /// The type.
    pub fn kind(&self) -> FileType {
        self.kind
    }

    /// Whether it is locked.
    pub fn locked(&self) -> bool {
        self.locked
    }

    /// The sector count, as the catalog states it.
    pub fn sectors(&self) -> u16 {
        self.sectors
    }

    /// The number of data bytes.
    pub fn len(&self) -> usize {
        self.length
    }

    /// Whether it has no data.
    pub fn is_empty(&self) -> bool {
        self.length == 0
    }

    /// The data, in the parts in which the blocks hold it: 254 bytes, and the rest in the last.
    pub fn data(&self) -> Data<'a> {
        Data {
            bytes: self.bytes,
            block: self.first,
            left: self.length,
        }
    }

    /// The data, copied into one piece.
    pub fn to_vec(&self) -> Vec<u8> {
        let mut all = Vec::with_capacity(self.length);
        self.data().for_each(|part| all.extend_from_slice(part));
        all
    }
}

/// The parts of an entry's data: [`ArchiveEntry::data`].
#[derive(Clone, Debug)]
pub struct Data<'a> {
    bytes: &'a [u8],
    // The data block that is next, and how many bytes are left.
    block: usize,
    left: usize,
}

impl<'a> Iterator for Data<'a> {
    type Item = &'a [u8];

    fn next(&mut self) -> Option<&'a [u8]> {
        if self.block == 0 || self.left == 0 {
            return None;
        }
        let s = self.bytes.get(256 * self.block..256 * self.block + 256)?;
        let part = &s[2..2 + self.left.min(254)];
        self.block = usize::from(u16::from_le_bytes([s[0], s[1]]));
        self.left -= part.len();
        Some(part)
    }
}

impl FusedIterator for Data<'_> {}
