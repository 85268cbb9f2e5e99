use crate::{lend, raw, Refusal, DISK_SIZE, DISK_SIZE_13, STREAM_SIZE};

/// The key of a field in a nibble stream: what its address says.
#[derive(Clone, Copy, Debug, PartialEq, Eq, Hash, PartialOrd, Ord)]
pub struct Key {
    /// Volume.
    pub volume: u8,
    /// Track.
    pub track: u8,
    /// The address's sector. Of 16 sectors a track it is not the DOS sector: address sector 1 is DOS
    /// sector 7. Of 13 it is.
    pub sector: u8,
}

/// A sector as 342 nibbles of 6-and-2 and the sum nibble.
///
/// # Errors
/// 1 for other than 256 bytes.
///
/// ```
/// assert_eq!(dos33::encode_sector(&[0; 256])?, [0x96; 343]);
/// # Ok::<(), dos33::Refusal>(())
/// ```
pub fn encode_sector(sector: &[u8]) -> Result<[u8; 343], Refusal> {
    // SAFETY: slices of this function, the written ones its own.
    lend::array(|o, n, l| unsafe {
        raw::dos33_encode_sector(sector.as_ptr(), sector.len(), o, n, l)
    })
}

/// A sector of a nibble stream of 16 sectors a track, by its key. The whole stream is judged, whichever
/// key is asked for.
///
/// # Time
/// At each field with a wrong sum that repeats a key, the first field of the key is looked for from the
/// stream's front. Where these are many, the time grows with the square of the stream's length: streams
/// made for it, half bytes D5h and half such fields, took 0.12 s at 233,003 bytes, 1.8 s at 1,000,214 and
/// 7.5 s at 2,000,065. Who takes streams from anywhere limits their length, or asks [`denibblize`], whose
/// time grows with the length alone.
///
/// # Errors
/// 8, 9, 10, in this order.
///
/// ```
/// use dos33::{nibblize, stream_sector, Key};
///
/// let mut disk = vec![0; dos33::DISK_SIZE];
/// disk[7 * 256] = 77; // track 0, DOS sector 7
/// let stream = nibblize(&disk)?;
/// assert_eq!(stream_sector(&stream, Key { volume: 0, track: 0, sector: 1 })?[0], 77);
/// # Ok::<(), dos33::Refusal>(())
/// ```
pub fn stream_sector(stream: &[u8], key: Key) -> Result<[u8; 256], Refusal> {
    // SAFETY: as in `encode_sector`.
    lend::array(|o, n, l| unsafe {
        raw::dos33_sector(
            stream.as_ptr(),
            stream.len(),
            key.volume,
            key.track,
            key.sector,
            o,
            n,
            l,
        )
    })
}

/// A sector of a nibble stream of 13 sectors a track (address mark D5 AA B5 (h), 5-and-3 coding), by its
/// key. The whole stream is judged, whichever key is asked for. Its time is that of [`stream_sector`]: it
/// may grow with the square of the stream's length.
///
/// # Errors
/// 8, 9, 10, in this order.
///
/// ```
/// use dos33::{stream_sector, stream_sector_13, Key, Refusal};
///
/// // Volume, track, sector and their sum are 0. In 5-and-3 a sector of zeros is 411 times ABh.
/// let address = b"\xD5\xAA\xB5\xAA\xAA\xAA\xAA\xAA\xAA\xAA\xAA\xDE\xAA\xEB";
/// let stream = [&address[..], b"\xD5\xAA\xAD", &[0xAB; 411], b"\xDE\xAA\xEB"].concat();
/// let key = Key { volume: 0, track: 0, sector: 0 };
/// assert_eq!(stream_sector_13(&stream, key)?, [0; 256]);
/// assert_eq!(stream_sector(&stream, key), Err(Refusal::Absent));
/// # Ok::<(), Refusal>(())
/// ```
pub fn stream_sector_13(stream: &[u8], key: Key) -> Result<[u8; 256], Refusal> {
    // SAFETY: as in `encode_sector`.
    lend::array(|o, n, l| unsafe {
        raw::dos33_sector_13(
            stream.as_ptr(),
            stream.len(),
            key.volume,
            key.track,
            key.sector,
            o,
            n,
            l,
        )
    })
}

/// The flat disk of a nibble stream of 16 sectors a track, [`DISK_SIZE`] bytes. The time grows with the
/// stream's length.
///
/// # Errors
/// 8, 11, 9, 10, in this order.
pub fn denibblize(stream: &[u8]) -> Result<Vec<u8>, Refusal> {
    // SAFETY: as in `encode_sector`.
    lend::bytes(DISK_SIZE, |o, n, l| unsafe {
        raw::dos33_denibblize(stream.as_ptr(), stream.len(), o, n, l)
    })
}

/// The flat disk of a nibble stream of 13 sectors a track, [`DISK_SIZE_13`] bytes. Addresses of the mark
/// D5 AA 96 (h) are none here, as those of D5 AA B5 (h) are none to [`denibblize`]. The time grows with
/// the stream's length.
///
/// # Errors
/// 8, 11, 9, 10, in this order.
///
/// ```
/// // 455 sectors of zeros, of volume 1.
/// let mut stream = Vec::new();
/// for (track, sector) in (0..35).flat_map(|t| (0..13).map(move |s| (t, s))) {
///     stream.extend(b"\xD5\xAA\xB5");
///     for value in [1, track, sector, 1 ^ track ^ sector] {
///         stream.extend([value >> 1 | 0xAA, value | 0xAA]);
///     }
///     stream.extend(b"\xDE\xAA\xEB\xD5\xAA\xAD");
///     stream.extend([0xAB; 411]);
///     stream.extend(b"\xDE\xAA\xEB");
/// }
/// assert_eq!(dos33::denibblize_13(&stream)?, [0; dos33::DISK_SIZE_13]);
/// assert_eq!(dos33::denibblize(&stream), Err(dos33::Refusal::Absent));
/// # Ok::<(), dos33::Refusal>(())
/// ```
pub fn denibblize_13(stream: &[u8]) -> Result<Vec<u8>, Refusal> {
    // SAFETY: as in `encode_sector`.
    lend::bytes(DISK_SIZE_13, |o, n, l| unsafe {
        raw::dos33_denibblize_13(stream.as_ptr(), stream.len(), o, n, l)
    })
}

/// The nibble stream of a flat disk of [`DISK_SIZE`] bytes, [`STREAM_SIZE`] bytes. Streams of 13 sectors
/// a track are not written.
///
/// # Errors
/// 1, also for [`DISK_SIZE_13`] bytes.
///
/// ```
/// let disk = vec![0x5A; dos33::DISK_SIZE];
/// assert_eq!(dos33::denibblize(&dos33::nibblize(&disk)?)?, disk);
/// # Ok::<(), dos33::Refusal>(())
/// ```
pub fn nibblize(disk: &[u8]) -> Result<Vec<u8>, Refusal> {
    // SAFETY: as in `encode_sector`.
    lend::bytes(STREAM_SIZE, |o, n, l| unsafe {
        raw::dos33_nibblize(disk.as_ptr(), disk.len(), o, n, l)
    })
}

/// The mark of an address field.
#[derive(Clone, Copy, Debug, PartialEq, Eq, Hash)]
pub enum Prologue {
    /// D5 AA 96 (h): disks of 16 sectors a track, which [`denibblize`] reads.
    SixteenSectors,
    /// D5 AA B5 (h): disks of 13 sectors a track, which [`denibblize_13`] reads.
    ThirteenSectors,
}

/// The address mark that comes first in a stream, if there is one. The other may come behind it: a stream
/// can hold both.
///
/// ```
/// use dos33::{recognize_prologue, Prologue};
///
/// assert_eq!(recognize_prologue(b"\xFF\xD5\xAA\x96"), Some(Prologue::SixteenSectors));
/// assert_eq!(recognize_prologue(b"\xD5\xAA"), None);
/// ```
pub fn recognize_prologue(stream: &[u8]) -> Option<Prologue> {
    // SAFETY: the stream is lent for reading.
    match unsafe { raw::dos33_recognize_prologue(stream.as_ptr(), stream.len()) } {
        0x96 => Some(Prologue::SixteenSectors),
        0xB5 => Some(Prologue::ThirteenSectors),
        _ => None,
    }
}

/// Whether the bytes look like a DOS 3.3 disk: its first nine bytes, and three where a disk of 16 sectors
/// a track has its VTOC.
///
/// # Errors
/// 17 for too few bytes to tell.
///
/// ```
/// assert_eq!(dos33::format_from_data(&[0; 9]), Ok(false));
/// assert_eq!(dos33::format_from_data(&[0; 8]), Err(dos33::Refusal::CutShort));
/// ```
pub fn format_from_data(data: &[u8]) -> Result<bool, Refusal> {
    // SAFETY: the data is lent for reading, the number is this call's own.
    let f: [u64; 1] = lend::numbers(|p, n| unsafe {
        raw::dos33_format_from_data(data.as_ptr(), data.len(), p, n)
    })?;
    Ok(f[0] != 0)
}
