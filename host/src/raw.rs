//! The exported functions as they are. The safe calls of this crate stand on them.
//!
//! A flat disk is 143,360 bytes (16 sectors a track) or 116,480 (13); its length alone says which.
//! Only [`dos33_nibblize`], [`dos33_forecast`] and the saves and deletes refuse the second. A stream is read
//! by the coding that the caller names.
//!
//! A slice is a pointer and a length (of `lengths`, `fields` and `run`: in elements). The result is the number of
//! a refusal, 0 for accepted; only [`dos33_recognize_prologue`] gives something else. Under a refusal
//! nothing lent changes. Where a call is accepted, `out` receives the bytes and `*length` their number,
//! `run` the pairs and `*length` their number, or `fields` its numbers; what lies past them keeps its
//! content. A save and a delete change `disk` in place.
//!
//! # Safety
//!
//! For each of them: every pointer is valid for its length and not null, even for length 0;
//! nothing lent to be written overlaps anything else that is lent. There is no other duty.
#![allow(clippy::missing_safety_doc)]

use crate::TrackSectorPair;

extern "C" {
    /// The 256 bytes of a sector, of `disk` if `flat` is not 0, else of `image`. The length of the one
    /// that is read says how many sectors a track has. Refusals 1, 3, 12.
    pub fn dos33_window(
        disk: *const u8,
        disk_length: usize,
        image: *const u8,
        image_length: usize,
        flat: u8,
        track: u8,
        sector: u8,
        out: *mut u8,
        out_length: usize,
        length: *mut u64,
    ) -> u8;

    /// 13 numbers: first catalog track, first catalog sector, release, volume byte, pair maximum, last
    /// track, direction (a byte), tracks, sectors, sector size, free, used, fill. The last three are over
    /// 560 sectors, or 455; fill is used in percent, to the nearest number, exactly halfway to the even
    /// one. Refusals 1, 2, 12.
    pub fn dos33_vtoc(
        disk: *const u8,
        disk_length: usize,
        fields: *mut u64,
        fields_length: usize,
    ) -> u8;

    /// The catalog, 37 bytes an entry: 0 list track, 1 list sector, 2 type, 3 lock, 4 name length, 5-34
    /// shown name then zeros, 35-36 sector count. The first page is where bytes 1 and 2 of the VTOC say, on
    /// any track. Refusals 1, 2, pages (3, 4, 6), 12.
    pub fn dos33_catalog(
        disk: *const u8,
        disk_length: usize,
        out: *mut u8,
        out_length: usize,
        length: *mut u64,
    ) -> u8;

    /// Track and sector of each list of entry number `entry`. Refusals 1 to 6, 12.
    pub fn dos33_lists(
        disk: *const u8,
        disk_length: usize,
        entry: u64,
        out: *mut u8,
        out_length: usize,
        length: *mut u64,
    ) -> u8;

    /// Track and sector of each pair of the list at a location. Refusals 1, 3, 12.
    pub fn dos33_pairs(
        disk: *const u8,
        disk_length: usize,
        track: u8,
        sector: u8,
        out: *mut u8,
        out_length: usize,
        length: *mut u64,
    ) -> u8;

    /// The same pairs in a run of structs; `*length` is their number, at most
    /// [`LIST_PAIRS`](crate::LIST_PAIRS). Refusals 1, 3, 12.
    pub fn dos33_pair_run(
        disk: *const u8,
        disk_length: usize,
        track: u8,
        sector: u8,
        run: *mut TrackSectorPair,
        run_length: usize,
        length: *mut u64,
    ) -> u8;

    /// The bytes of entry number `entry`. Refusals 1 to 6, 12.
    pub fn dos33_file(
        disk: *const u8,
        disk_length: usize,
        entry: u64,
        out: *mut u8,
        out_length: usize,
        length: *mut u64,
    ) -> u8;

    /// The bytes of the last entry whose shown name is `name`. Refusals 1 to 6, 18, 12.
    pub fn dos33_fetch(
        disk: *const u8,
        disk_length: usize,
        name: *const u8,
        name_length: usize,
        out: *mut u8,
        out_length: usize,
        length: *mut u64,
    ) -> u8;

    /// 7 numbers: volume, number of entries, free, used, fill, archive blocks, links followed.
    /// Refusals 1 to 6, 12.
    pub fn dos33_survey(
        disk: *const u8,
        disk_length: usize,
        fields: *mut u64,
        fields_length: usize,
    ) -> u8;

    /// 5 numbers: sectors held by no one, by exactly one holder, by more than one (560 or 455 together);
    /// held sectors that the map calls free; 1 where the disk is clean, else 0.
    /// [`Holders`](crate::Holders) says what a holder is. Refusals 1 to 6, 12.
    pub fn dos33_holders(
        disk: *const u8,
        disk_length: usize,
        fields: *mut u64,
        fields_length: usize,
    ) -> u8;

    /// Saves `data` as an unlocked Binary file of that name and load address, in the first entry line that
    /// is not in use: the disk is changed in place. Refusals 1 to 6, 20, 14, 22, 21.
    pub fn dos33_save(
        disk: *mut u8,
        disk_length: usize,
        name: *const u8,
        name_length: usize,
        address: u16,
        data: *const u8,
        data_length: usize,
    ) -> u8;

    /// Deletes the last entry whose shown name is `name`, locked or not, of any type: the disk is changed in
    /// place. Refusals 1 to 6, 20, 14, 18.
    pub fn dos33_delete(
        disk: *mut u8,
        disk_length: usize,
        name: *const u8,
        name_length: usize,
    ) -> u8;

    /// The same by a side: 0 is ours, anything else the survey office. Names that begin with S (53h) are the
    /// survey office's, all others ours. `limit` is how many sectors the side may hold, lists and data; what
    /// it holds and what the save takes must not be over it. Refusals 1 to 6, 20, 14, 23, 22, 24, 21.
    pub fn dos33_save_for(
        disk: *mut u8,
        disk_length: usize,
        side: u8,
        limit: u64,
        name: *const u8,
        name_length: usize,
        address: u16,
        data: *const u8,
        data_length: usize,
    ) -> u8;

    /// As [`dos33_delete`], by a side. `limit` is not looked at. Refusals 1 to 6, 20, 14, 23, 18.
    pub fn dos33_delete_for(
        disk: *mut u8,
        disk_length: usize,
        side: u8,
        limit: u64,
        name: *const u8,
        name_length: usize,
    ) -> u8;

    /// What saves of these lengths, one after the other, will need, without writing. 3 numbers and one for
    /// each length: data sectors, list sectors and entry lines needed in all, by the saves that would be
    /// accepted; then for each length 1 where its save would end in 21, else 0. Refusals 25, 1 to 6, 20, 12.
    pub fn dos33_forecast(
        disk: *const u8,
        disk_length: usize,
        lengths: *const u64,
        lengths_length: usize,
        fields: *mut u64,
        fields_length: usize,
    ) -> u8;

    /// The disk's archive. Refusals 1 to 6, 7, 12.
    pub fn dos33_archive_write(
        disk: *const u8,
        disk_length: usize,
        out: *mut u8,
        out_length: usize,
        length: *mut u64,
    ) -> u8;

    /// Accepted exactly where `archive` is the disk's archive. Refusals 1 to 6, 7, 13.
    pub fn dos33_archive_check(
        disk: *const u8,
        disk_length: usize,
        archive: *const u8,
        archive_length: usize,
    ) -> u8;

    /// 3 numbers: volume byte, first entry block (0: none), number of blocks. Refusals 13, 12.
    pub fn dos33_archive_open(
        archive: *const u8,
        archive_length: usize,
        fields: *mut u64,
        fields_length: usize,
    ) -> u8;

    /// 8 numbers of the entry whose entry block is `block`: 1, next entry block, first data block, type,
    /// lock, name length, sector count, data length. Any other block is the end: eight zeros. The name as
    /// it is shown stands at 256 * block + 7 of the archive, the 30 name bytes as they are cut at
    /// 256 * block + 42. The archive is opened again at each call. Refusals 13, 12.
    pub fn dos33_archive_entry(
        archive: *const u8,
        archive_length: usize,
        block: u64,
        fields: *mut u64,
        fields_length: usize,
    ) -> u8;

    /// The same 8 numbers, of a block that [`dos33_archive_open`] or a step gave for these very bytes.
    /// That block alone is looked at: this is the cheap step. Refusal 12.
    ///
    /// A block that does not look like an entry block is the end: eight zeros, 13 is never given. The
    /// bytes of a file can look like one, so of a block that no step gave this may show an entry that the
    /// archive has not; [`dos33_archive_entry`] shows entry blocks alone.
    pub fn dos33_archive_step(
        archive: *const u8,
        archive_length: usize,
        block: u64,
        fields: *mut u64,
        fields_length: usize,
    ) -> u8;

    /// 343 bytes: the 342 nibbles of a sector and the sum nibble. Refusals 1, 12.
    pub fn dos33_encode_sector(
        sector: *const u8,
        sector_length: usize,
        out: *mut u8,
        out_length: usize,
        length: *mut u64,
    ) -> u8;

    /// The 256 bytes of a sector of a stream of 16 sectors a track, by the key of its address field.
    /// The time may grow with the square of the stream's length, as
    /// [`stream_sector`](crate::stream_sector) says. Refusals 8, 9, 10, 12.
    pub fn dos33_sector(
        stream: *const u8,
        stream_length: usize,
        volume: u8,
        track: u8,
        sector: u8,
        out: *mut u8,
        out_length: usize,
        length: *mut u64,
    ) -> u8;

    /// The flat disk of a stream of 16 sectors a track, 143,360 bytes. The time grows with the stream's
    /// length. Refusals 8, 11, 9, 10, 12.
    pub fn dos33_denibblize(
        stream: *const u8,
        stream_length: usize,
        out: *mut u8,
        out_length: usize,
        length: *mut u64,
    ) -> u8;

    /// The 256 bytes of a sector of a stream of 13 sectors a track, by the key of its address field.
    /// The time is as that of [`dos33_sector`]. Refusals 8, 9, 10, 12.
    pub fn dos33_sector_13(
        stream: *const u8,
        stream_length: usize,
        volume: u8,
        track: u8,
        sector: u8,
        out: *mut u8,
        out_length: usize,
        length: *mut u64,
    ) -> u8;

    /// The flat disk of a stream of 13 sectors a track, 116,480 bytes. The time grows with the stream's
    /// length. Refusals 8, 11, 9, 10, 12.
    pub fn dos33_denibblize_13(
        stream: *const u8,
        stream_length: usize,
        out: *mut u8,
        out_length: usize,
        length: *mut u64,
    ) -> u8;

    /// The nibble stream of a flat disk of 143,360 bytes, 232,960 bytes. Refusals 1, 12.
    pub fn dos33_nibblize(
        disk: *const u8,
        disk_length: usize,
        out: *mut u8,
        out_length: usize,
        length: *mut u64,
    ) -> u8;

    /// The 35 bytes of a catalog entry. Refusals 14, 12.
    pub fn dos33_entry_record(
        track: u8,
        sector: u8,
        kind: u8,
        locked: u8,
        name: *const u8,
        name_length: usize,
        count: u16,
        out: *mut u8,
        out_length: usize,
        length: *mut u64,
    ) -> u8;

    /// The 256 bytes of a catalog page, from its bytes 0-10 and entries of 37 bytes. Refusals 16, 14, 12.
    pub fn dos33_catalog_page(
        header: *const u8,
        header_length: usize,
        entries: *const u8,
        entries_length: usize,
        out: *mut u8,
        out_length: usize,
        length: *mut u64,
    ) -> u8;

    /// Address, size and data of a Binary file. Refusals 15, 12.
    pub fn dos33_binary_file(
        kind: u8,
        address: u16,
        size: u16,
        data: *const u8,
        data_length: usize,
        out: *mut u8,
        out_length: usize,
        length: *mut u64,
    ) -> u8;

    /// 96h or B5h, whichever first follows D5 AA (h), or 0 for none. The result is no refusal.
    pub fn dos33_recognize_prologue(stream: *const u8, stream_length: usize) -> u8;

    /// 1 number: 1 for a DOS 3.3 disk, else 0. Refusals 17, 12.
    pub fn dos33_format_from_data(
        data: *const u8,
        data_length: usize,
        fields: *mut u64,
        fields_length: usize,
    ) -> u8;

    /// The letters of the word of a refusal, by its number: at most 17, ASCII. A number that no refusal has,
    /// 0 among them, has none: accepted, and `*length` is 0. Refusal 12.
    pub fn dos33_refusal_word(number: u8, out: *mut u8, out_length: usize, length: *mut u64) -> u8;
}
