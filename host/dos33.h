/*
 * Apple DOS 3.3 and DOS 3.2 disks, nibble streams and archives. Link libdos33.a: it is the library
 * that `rt lib` in crates/host makes, crates/host/out/libhost.a, under this name.
 *
 * A flat disk is 35 tracks of sectors of 256 bytes. Its length alone says how many a track has:
 * 143,360 bytes are 16 (DOS 3.3), 116,480 bytes are 13 (DOS 3.2). Every function that takes a flat
 * disk takes both; only dos33_nibblize, dos33_save, dos33_delete, dos33_save_for, dos33_delete_for
 * and dos33_forecast refuse 116,480 bytes, as 1.
 * A nibble stream is read as the caller says: dos33_denibblize and dos33_sector go by the address
 * mark D5 AA 96 (h) and 6-and-2 coding, those with _13 by D5 AA B5 (h) and 5-and-3. A stream that
 * both can read stands for two disks. Which mark comes first: dos33_recognize_prologue.
 *
 * Duties of the caller, for every function:
 *   - each pointer is valid for its length, and not null, even where the length is 0;
 *   - `length` points to one uint64_t; the lengths of `lengths`, `fields` and `run` are in
 *     elements;
 *   - what is lent to be written (`out`, `length`, `fields`, `run`, and the `disk` of the saves and
 *     deletes) overlaps nothing else that is lent.
 * There is no other: any bytes and any numbers may be handed in.
 *
 * The result is 0 for accepted, or the number of a refusal (below). Only
 * dos33_recognize_prologue gives something else.
 *   - Under a refusal nothing lent changes.
 *   - Where a call is accepted, `out` receives the bytes and *length their number, `run` the pairs
 *     and *length their number, or `fields` its numbers in the order given. What lies past them
 *     keeps its content. The saves and deletes change `disk` in place.
 * Each comment names the refusals in the order in which they are tested. A yes or no handed in is a
 * uint8_t: 0 is no, anything else is yes. A type is one of the codes below.
 *
 * Costs:
 *   - Stack: dos33_archive_open and dos33_archive_entry go as deep as the archive has blocks. Under
 *     352 KiB were measured for 4,096 blocks. dos33_denibblize and dos33_denibblize_13 decode into a
 *     disk of their own: under 160 KiB. Under 48 KiB were measured for every other function.
 *   - Time: dos33_archive_entry goes through all of the archive, dos33_archive_step looks at one
 *     block. dos33_file, dos33_fetch and dos33_lists judge every file of the disk; for all files at
 *     once: dos33_archive_write, dos33_archive_open, then dos33_archive_step entry by entry.
 *     The saves, the deletes and dos33_forecast judge every file, and count the holders of every
 *     sector, each time.
 *   - Time on streams: dos33_sector and dos33_sector_13 look for the first field of a key at each
 *     field with a wrong sum that repeats one. Where these are many, the time grows with the square
 *     of the stream's length: streams made for it, half bytes D5h and half such fields, took 0.12 s
 *     at 233,003 bytes, 1.8 s at 1,000,214 and 7.5 s at 2,000,065. Without such fields it grows with
 *     the length, and that of dos33_denibblize and dos33_denibblize_13 always does.
 */
#ifndef DOS33_H
#define DOS33_H

#include <stddef.h>
#include <stdint.h>

#ifdef __cplusplus
extern "C" {
#endif

/* Refusals. */
enum {
    DOS33_ACCEPTED = 0,
    DOS33_OFF_SIZE = 1,         /* flat disk neither 143,360 nor 116,480 bytes (to nibblize, to save
                                   to, to delete from, to forecast for: not 143,360); sector to
                                   encode not 256 */
    DOS33_NO_TABLE = 2,         /* VTOC: tracks not 35 or 40, sectors not 16 or 13 (on a disk
                                   of 13 sectors a track: not 13) */
    DOS33_OFF_DISC = 3,         /* a page, list, pair or location is not on the disk */
    DOS33_RING = 4,             /* a link leads to a sector already read in its own chain */
    DOS33_CUT_LINK = 5,         /* list: next track nonzero, next sector 0 */
    DOS33_BAD_LETTER = 6,       /* a live name holds 80h */
    DOS33_OVERLONG = 7,         /* archive over 4,096 blocks */
    DOS33_ADDRESS_SUM = 8,      /* any whole address that the search meets */
    DOS33_DATA_SUM = 9,         /* a field that counts */
    DOS33_ABSENT = 10,          /* sector not in the stream */
    DOS33_STRANGER = 11,        /* track over 34, sector over 15 (of 13 sectors a track: over
                                   12) or a second volume */
    DOS33_TRAY_SHORT = 12,      /* lent space under the need */
    DOS33_NOT_ITS_RETURN = 13,  /* not the disk's archive, or no archive */
    DOS33_UNWRITABLE_NAME = 14, /* empty, over 30, byte 80h or more; of a save or a delete also a
                                   byte 0, or a space at the end */
    DOS33_NOT_BINARY = 15,      /* a file of another type */
    DOS33_PAGE_FULL = 16,       /* over 7 entries */
    DOS33_CUT_SHORT = 17,       /* too few bytes to recognise */
    DOS33_NOT_ON_ROLL = 18,     /* no entry has the name asked for */
    DOS33_NOT_CLEAN = 20,       /* to save to, to delete from, to forecast for: a sector is shared,
                                   or a held one is free in the map (dos33_holders) */
    DOS33_NO_SPACE = 21,        /* no sector or no entry line for a save, or data over 32,768 */
    DOS33_NAME_TAKEN = 22,      /* an entry shows the name to save */
    DOS33_OTHER_SIDE = 23,      /* a name of the other side, on the disk or not */
    DOS33_OVER_LIMIT = 24,      /* a side's sectors and its save's together over its limit */
    DOS33_PLAN_LONG = 25        /* over 64 lengths to forecast */
};

/* File types. Any other code is Unknown. */
enum {
    DOS33_TEXT = 0,
    DOS33_INTEGER_BASIC = 1,
    DOS33_APPLESOFT_BASIC = 2,
    DOS33_BINARY = 4,
    DOS33_S = 8,
    DOS33_RELOCATABLE = 10,
    DOS33_A = 20,
    DOS33_B = 40,
    DOS33_UNKNOWN = 41
};

/* Sides. A name whose first byte, as it is shown, is S (53h) is the survey office's; every other is
   ours. */
enum {
    DOS33_OURS = 0,
    DOS33_SURVEY = 1 /* so is any other number but 0 */
};

/* Tracks of a disk, and sectors of a track; _13 is DOS 3.2. */
enum {
    DOS33_TRACKS = 35,
    DOS33_SECTORS_PER_TRACK = 16,
    DOS33_SECTORS_PER_TRACK_13 = 13
};

/* Space that is always enough, for disks of 16 and of 13 sectors a track. */
enum {
    DOS33_SECTOR_SIZE = 256,        /* window, sector, sector_13 */
    DOS33_DISK_SIZE = 143360,       /* denibblize: 256 * 16 * 35 */
    DOS33_DISK_SIZE_13 = 116480,    /* denibblize_13: 256 * 13 * 35 */
    DOS33_STREAM_SIZE = 232960,     /* nibblize */
    DOS33_CATALOG_MOST = 145040,    /* catalog: 37 * 7 * 560 */
    DOS33_LISTS_MOST = 1120,        /* lists: 2 * 560 */
    DOS33_PAIR_RUN_MOST = 122,      /* pair_run, in pairs: bytes 12 to 255 of a list */
    DOS33_PAIRS_MOST = 2 * DOS33_PAIR_RUN_MOST, /* pairs, in bytes */
    DOS33_FILE_MOST = 65536,        /* file, fetch */
    DOS33_SAVE_MOST = 32768,        /* the most bytes that save and save_for take */
    DOS33_PLAN_MOST = 64,           /* the most lengths that forecast takes */
    DOS33_ARCHIVE_MOST = 1048576,   /* archive_write: 256 * 4096 */
    DOS33_NIBBLES_SIZE = 343,       /* encode_sector: a sector in 6-and-2, and the sum */
    DOS33_NIBBLES_SIZE_13 = 411,    /* a sector in 5-and-3, and the sum; it is read, not written */
    DOS33_ENTRY_SIZE = 35,          /* entry_record */
    DOS33_WORD_MOST = 17,           /* refusal_word */
    DOS33_VTOC_FIELDS = 13,
    DOS33_SURVEY_FIELDS = 7,
    DOS33_HOLDERS_FIELDS = 5,
    DOS33_FORECAST_FIELDS = 3,      /* forecast, and one for each length */
    DOS33_OPEN_FIELDS = 3,
    DOS33_STEP_FIELDS = 8,
    DOS33_FORMAT_FIELDS = 1
};

/* Where an entry block of an archive has its name. */
enum {
    DOS33_ARCHIVE_NAME = 7,         /* as it is shown; dos33_archive_step gives its length */
    DOS33_ARCHIVE_RAW_NAME = 42,    /* as it is cut: the name bytes of the disk, */
    DOS33_RAW_NAME_SIZE = 30        /* so many of them */
};

/* A pair of a track/sector list: two bytes, one behind the other. */
typedef struct dos33_track_sector_pair {
    uint8_t track_number;
    uint8_t sector_number;
} dos33_track_sector_pair;

/* The 256 bytes of a sector, of `disk` if flat, else of `image`; the other one is not read, and the
   length of the one that is says how many sectors a track has. 1, 3, 12. */
uint8_t dos33_window(const uint8_t *disk, size_t disk_length,
                     const uint8_t *image, size_t image_length,
                     uint8_t flat, uint8_t track, uint8_t sector,
                     uint8_t *out, size_t out_length, uint64_t *length);

/* 13 numbers: first catalog track, first catalog sector, release, volume byte, pair maximum,
   last track, direction (the byte, 255 for -1), tracks, sectors, sector size, free, used, fill.
   The last three are over all sectors of the disk, 560 or 455. Fill is 100 times used by these, to
   the nearest number; exactly halfway, to the even one: 14 of 560 are 2, 42 are 8. 1, 2, 12. */
uint8_t dos33_vtoc(const uint8_t *disk, size_t disk_length,
                   uint64_t *fields, size_t fields_length);

/* The live entries, 37 bytes each: 0 list track, 1 list sector, 2 type, 3 lock, 4 name length,
   5-34 shown name then zeros, 35-36 sector count (low byte first). The first page is where bytes 1
   and 2 of the VTOC say, on any track: the first two numbers of dos33_vtoc.
   1, 2, then page by page 3, 4, 6; 12. */
uint8_t dos33_catalog(const uint8_t *disk, size_t disk_length,
                      uint8_t *out, size_t out_length, uint64_t *length);

/* Track and sector of each track/sector list of entry number `entry`, from 0. A number past the
   catalog has none. 1 to 6, 12. */
uint8_t dos33_lists(const uint8_t *disk, size_t disk_length, uint64_t entry,
                    uint8_t *out, size_t out_length, uint64_t *length);

/* Track and sector of each pair of the list at that location, up to the first with track 0. They
   are not followed. 1, 3, 12. */
uint8_t dos33_pairs(const uint8_t *disk, size_t disk_length, uint8_t track, uint8_t sector,
                    uint8_t *out, size_t out_length, uint64_t *length);

/* The same pairs in a run of structs; *length is their number. 1, 3, 12. */
uint8_t dos33_pair_run(const uint8_t *disk, size_t disk_length, uint8_t track, uint8_t sector,
                       dos33_track_sector_pair *run, size_t run_length, uint64_t *length);

/* The bytes of entry number `entry`, from 0. A number past the catalog has none. 1 to 6, 12. */
uint8_t dos33_file(const uint8_t *disk, size_t disk_length, uint64_t entry,
                   uint8_t *out, size_t out_length, uint64_t *length);

/* The bytes of the last entry whose shown name is `name`, however it is cut. 1 to 6, 18, 12. */
uint8_t dos33_fetch(const uint8_t *disk, size_t disk_length,
                    const uint8_t *name, size_t name_length,
                    uint8_t *out, size_t out_length, uint64_t *length);

/* 7 numbers: volume, number of entries, free, used, fill (as in dos33_vtoc), archive blocks, links
   followed. 1 to 6, 12. */
uint8_t dos33_survey(const uint8_t *disk, size_t disk_length,
                     uint64_t *fields, size_t fields_length);

/* 5 numbers: sectors held by no one, by exactly one holder, by more than one (560 or 455 together);
   held sectors that the map calls free, a shared one once; 1 where the disk is clean, else 0. A
   holder is the VTOC, a catalog page, a track/sector list or a data pair, each place counted: a pair
   that a list names twice is two, and two entries with one list share it and all its data. A disk is
   clean where the third and the fourth number are 0. 1 to 6, 12. */
uint8_t dos33_holders(const uint8_t *disk, size_t disk_length,
                      uint64_t *fields, size_t fields_length);

/* Saves `data`, at most DOS33_SAVE_MOST bytes, as an unlocked Binary file with that load address: the
   disk is changed in place. The entry fills the first line that is unused or deleted, in chain
   order; no page is added. Each sector is sought anew, from the VTOC's last track in its direction to
   the edge, then from track 17 the other way, then from 17 back, in a track the highest first; the
   first list, its data, the next list, its data. Tracks 0, 17 and that of the first catalog page are
   never taken. The name is 1 to 30 bytes below 80h, none of them 0, with no space at its end. Only the
   VTOC, the entry's page and the sectors taken change, and a clean disk stays clean.
   1 (also for 116,480 bytes) to 6, 20, 14, 22, 21. */
uint8_t dos33_save(uint8_t *disk, size_t disk_length,
                   const uint8_t *name, size_t name_length, uint16_t address,
                   const uint8_t *data, size_t data_length);

/* Deletes the last entry whose shown name is `name`, locked or not, of any type: the disk is changed
   in place. The line's list track becomes FFh and its name's last byte the old one, and the map calls
   its lists and data sectors free; their bytes stay. An entry whose name is shown empty or with a
   byte 0 cannot be deleted so: 14. 1 (also for 116,480 bytes) to 6, 20, 14, 18. */
uint8_t dos33_delete(uint8_t *disk, size_t disk_length,
                     const uint8_t *name, size_t name_length);

/* As dos33_save, by a side, DOS33_OURS or DOS33_SURVEY. The name must be the side's own. `limit` is
   how many sectors the side may hold: those of its files, lists and data, counted along their lists,
   and those of this save must together not be over it; just as many are within it. The save's are told
   by its length, whatever that is, so data over DOS33_SAVE_MOST bytes may be 24 before it is 21. No
   byte of the other side's files changes, and no entry line in use by it.
   1 (also for 116,480 bytes) to 6, 20, 14, 23, 22, 24, 21. */
uint8_t dos33_save_for(uint8_t *disk, size_t disk_length, uint8_t side, uint64_t limit,
                       const uint8_t *name, size_t name_length, uint16_t address,
                       const uint8_t *data, size_t data_length);

/* As dos33_delete, by a side. The name must be the side's own; `limit` is not looked at.
   1 (also for 116,480 bytes) to 6, 20, 14, 23, 18. */
uint8_t dos33_delete_for(uint8_t *disk, size_t disk_length, uint8_t side, uint64_t limit,
                         const uint8_t *name, size_t name_length);

/* What saves of these lengths (bytes of data), one after the other, will need, without writing. 3
   numbers and one for each length: data sectors, list sectors and entry lines needed in all, by the
   saves that would be accepted; then for each length 1 where its save would end in 21, else 0. Names
   are taken as new and allowed. A save that would end in 21 needs nothing, and those behind it are told
   as if it had not been. Each length may be any number. 25 for over DOS33_PLAN_MOST lengths, then 1
   (also for 116,480 bytes) to 6, 20, 12. */
uint8_t dos33_forecast(const uint8_t *disk, size_t disk_length,
                       const uint64_t *lengths, size_t lengths_length,
                       uint64_t *fields, size_t fields_length);

/* The disk's archive. It does not tell how many sectors a track has: disks of 16 and of 13 with the
   same contents have the same archive. 1 to 6, 7, 12. */
uint8_t dos33_archive_write(const uint8_t *disk, size_t disk_length,
                            uint8_t *out, size_t out_length, uint64_t *length);

/* Accepted exactly where `archive` is the disk's archive. 1 to 6, 7, 13. */
uint8_t dos33_archive_check(const uint8_t *disk, size_t disk_length,
                            const uint8_t *archive, size_t archive_length);

/* 3 numbers: volume byte, first entry block (0: none), number of blocks. 13, 12. */
uint8_t dos33_archive_open(const uint8_t *archive, size_t archive_length,
                           uint64_t *fields, size_t fields_length);

/* 8 numbers of the entry whose entry block is `block`: 1, next entry block (0 after the last),
   first data block (0: no data), type, lock, name length, sector count, data length. The name as
   it is shown stands at 256 * block + DOS33_ARCHIVE_NAME, and the 30 name bytes as they are cut on
   the disk at 256 * block + DOS33_ARCHIVE_RAW_NAME. Any other block is the end: eight zeros. A data
   block has the next data block in bytes 0-1 (low byte first, 0 after the last) and up to 254 bytes
   of data from byte 2. The archive is opened again at each call. 13, 12. */
uint8_t dos33_archive_entry(const uint8_t *archive, size_t archive_length, uint64_t block,
                            uint64_t *fields, size_t fields_length);

/* The same 8 numbers, of a block that dos33_archive_open or a step gave for these very bytes; that
   block alone is looked at. A block that does not look like an entry block is the end: eight zeros,
   and 13 is never given. The bytes of a file can look like one, so of a block that no step gave this
   may show an entry that the archive has not: then ask dos33_archive_entry. 12. */
uint8_t dos33_archive_step(const uint8_t *archive, size_t archive_length, uint64_t block,
                           uint64_t *fields, size_t fields_length);

/* 343 bytes: the 342 nibbles of a sector in 6-and-2 and the sum nibble. 1, 12. */
uint8_t dos33_encode_sector(const uint8_t *sector, size_t sector_length,
                            uint8_t *out, size_t out_length, uint64_t *length);

/* The 256 bytes of the field whose address has that volume, track and sector (the address's, not
   the DOS sector). The time may grow with the square of the stream's length: see above. 8, 9, 10,
   12. */
uint8_t dos33_sector(const uint8_t *stream, size_t stream_length,
                     uint8_t volume, uint8_t track, uint8_t sector,
                     uint8_t *out, size_t out_length, uint64_t *length);

/* The flat disk of a nibble stream, 143,360 bytes. 8, 11, 9, 10, 12. */
uint8_t dos33_denibblize(const uint8_t *stream, size_t stream_length,
                         uint8_t *out, size_t out_length, uint64_t *length);

/* As dos33_sector, its cost too, by the address mark D5 AA B5 (h) and 5-and-3 coding. Here the
   address's sector is the DOS sector. 8, 9, 10, 12. */
uint8_t dos33_sector_13(const uint8_t *stream, size_t stream_length,
                        uint8_t volume, uint8_t track, uint8_t sector,
                        uint8_t *out, size_t out_length, uint64_t *length);

/* The flat disk of 13 sectors a track of a nibble stream, 116,480 bytes. An address of the other
   mark is none here. 8, 11, 9, 10, 12. */
uint8_t dos33_denibblize_13(const uint8_t *stream, size_t stream_length,
                            uint8_t *out, size_t out_length, uint64_t *length);

/* The nibble stream of a flat disk of 143,360 bytes; streams of 13 sectors a track are not written.
   1, 12. */
uint8_t dos33_nibblize(const uint8_t *disk, size_t disk_length,
                       uint8_t *out, size_t out_length, uint64_t *length);

/* The 35 bytes of a catalog entry. 14, 12. */
uint8_t dos33_entry_record(uint8_t track, uint8_t sector, uint8_t kind, uint8_t locked,
                           const uint8_t *name, size_t name_length, uint16_t count,
                           uint8_t *out, size_t out_length, uint64_t *length);

/* The 256 bytes of a catalog page. `header` is its bytes 0-10 (short: the rest are zero; long: the
   rest is not read). `entries` is in the 37-byte form of dos33_catalog, as many as fit whole.
   16, 14, 12. */
uint8_t dos33_catalog_page(const uint8_t *header, size_t header_length,
                           const uint8_t *entries, size_t entries_length,
                           uint8_t *out, size_t out_length, uint64_t *length);

/* Address, size as given, data: 4 bytes more than the data. 15, 12. */
uint8_t dos33_binary_file(uint8_t kind, uint16_t address, uint16_t size,
                          const uint8_t *data, size_t data_length,
                          uint8_t *out, size_t out_length, uint64_t *length);

/* The result is 96h (16 sectors a track) or B5h (13), whichever first follows D5 AA (h), or 0 for
   none. */
uint8_t dos33_recognize_prologue(const uint8_t *stream, size_t stream_length);

/* 1 number: 1 for a DOS 3.3 disk, else 0. It looks at the first nine bytes, and at three where a
   disk of 16 sectors a track has its VTOC. 17, 12. */
uint8_t dos33_format_from_data(const uint8_t *data, size_t data_length,
                               uint64_t *fields, size_t fields_length);

/* The letters of the word of a refusal, by its number; no zero is put behind them. A number that no
   refusal has, 0 among them, has none: *length is 0. 12. */
uint8_t dos33_refusal_word(uint8_t number, uint8_t *out, size_t out_length, uint64_t *length);

#ifdef __cplusplus
}
#endif

#endif
