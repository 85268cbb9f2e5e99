/* A disk with one Binary file, and a stream of 13 sectors a track, through every function of dos33.h.
   Ends with 0 and the word "good". */
#include "dos33.h"

#include <stdio.h>
#include <string.h>

#define EXPECT(x) do { if (!(x)) { printf("line %d: %s\n", __LINE__, #x); return 1; } } while (0)

static uint8_t disk[DOS33_DISK_SIZE], image[DOS33_DISK_SIZE];
static uint8_t stream[DOS33_STREAM_SIZE], archive[DOS33_ARCHIVE_MOST];
static uint8_t out[DOS33_CATALOG_MOST];

static uint8_t *at(size_t track, size_t sector) { return disk + 4096 * track + 256 * sector; }

/* A stream of 13 sectors a track of volume 254, sectors of zeros: 411 times ABh each. Its fields are 431
   bytes, in order. */
static uint8_t *field(size_t track, size_t sector) { return stream + 431 * (13 * track + sector); }

static size_t thirteen(void) {
    static const uint8_t ends[] = {0xDE, 0xAA, 0xEB, 0xD5, 0xAA, 0xAD};
    unsigned track, sector, k;
    for (track = 0; track < DOS33_TRACKS; track++) {
        for (sector = 0; sector < DOS33_SECTORS_PER_TRACK_13; sector++) {
            const unsigned values[] = {254, track, sector, 254 ^ track ^ sector};
            uint8_t *f = field(track, sector);
            f[0] = 0xD5;
            f[1] = 0xAA;
            f[2] = 0xB5;
            for (k = 0; k < 4; k++) {
                f[3 + 2 * k] = (uint8_t)(values[k] >> 1 | 0xAA);
                f[4 + 2 * k] = (uint8_t)(values[k] | 0xAA);
            }
            memcpy(f + 11, ends, 6);
            memset(f + 17, 0xAB, DOS33_NIBBLES_SIZE_13);
            memcpy(f + 17 + DOS33_NIBBLES_SIZE_13, ends, 3);
        }
    }
    return 431 * DOS33_SECTORS_PER_TRACK_13 * DOS33_TRACKS;
}

int main(void) {
    static const uint8_t name[] = {'L', 'I', 'N', 'E'};
    static const uint8_t other[] = {'O', 'T', 'H', 'E', 'R', ' '};
    static const uint8_t survey[] = {'S', ' ', '1'};
    static const uint8_t header[] = {0, 0, 0};
    static const uint64_t plan[DOS33_PLAN_MOST + 1] = {200, 0};
    uint8_t data[300], listed[37] = {18, 2, DOS33_BINARY, 1, 4, 'L', 'I', 'N', 'E'};
    uint8_t small[4] = {1, 2, 3, 4};
    dos33_track_sector_pair run[3] = {{77, 78}, {77, 78}, {77, 78}};
    static dos33_track_sector_pair full[DOS33_PAIR_RUN_MOST];
    uint64_t f[DOS33_VTOC_FIELDS], g[DOS33_STEP_FIELDS], n = 0, blocks, k, block, left, size;

    listed[35] = 3;
    for (k = 0; k < sizeof data; k++) data[k] = (uint8_t)(7 * k);

    /* Record writers make the disk. */
    at(17, 0)[1] = 17;
    at(17, 0)[2] = 15;
    at(17, 0)[6] = 254;
    at(17, 0)[52] = 35;
    at(17, 0)[53] = 16;
    EXPECT(dos33_catalog_page(header, sizeof header, listed, sizeof listed, at(17, 15), 256, &n) == 0);
    EXPECT(n == 256);
    EXPECT(dos33_entry_record(18, 2, DOS33_BINARY, 1, name, 4, 3, out, sizeof out, &n) == 0);
    EXPECT(n == DOS33_ENTRY_SIZE && memcmp(out, at(17, 15) + 11, 35) == 0);
    EXPECT(dos33_entry_record(18, 2, 4, 1, name, 0, 3, out, sizeof out, &n) == DOS33_UNWRITABLE_NAME);
    at(18, 2)[12] = 18;
    at(18, 2)[13] = 3;
    at(18, 2)[14] = 18;
    at(18, 2)[15] = 4;
    EXPECT(dos33_binary_file(DOS33_BINARY, 0x2000, 300, data, 300, at(18, 3), 512, &n) == 0);
    EXPECT(n == 304 && at(18, 3)[1] == 0x20);
    EXPECT(dos33_binary_file(DOS33_TEXT, 0, 0, data, 300, out, sizeof out, &n) == DOS33_NOT_BINARY);

    /* The flat disk. */
    EXPECT(dos33_vtoc(disk, sizeof disk, f, DOS33_VTOC_FIELDS) == 0);
    EXPECT(f[3] == 254 && f[7] == 35 && f[8] == 16 && f[10] == 0 && f[11] == 560 && f[12] == 100);
    /* 14 and 42 sectors used: exactly halfway, to the even number. */
    memset(at(17, 0) + 56, 0xFF, 140);
    at(17, 0)[56] = 0x00;
    at(17, 0)[57] = 0x03;
    EXPECT(dos33_vtoc(disk, sizeof disk, f, DOS33_VTOC_FIELDS) == 0 && f[11] == 14 && f[12] == 2);
    memset(at(17, 0) + 56, 0, 9);
    at(17, 0)[65] = 0x3F;
    EXPECT(dos33_survey(disk, sizeof disk, f, DOS33_SURVEY_FIELDS) == 0 && f[3] == 42 && f[4] == 8);
    memset(at(17, 0) + 56, 0, 140);
    EXPECT(dos33_catalog(disk, sizeof disk, out, sizeof out, &n) == 0);
    EXPECT(n == 37 && memcmp(out, listed, 37) == 0);
    EXPECT(dos33_lists(disk, sizeof disk, 0, out, sizeof out, &n) == 0);
    EXPECT(n == 2 && out[0] == 18 && out[1] == 2);
    EXPECT(dos33_pairs(disk, sizeof disk, 18, 2, out, sizeof out, &n) == 0);
    EXPECT(n == 4 && out[2] == 18 && out[3] == 4);
    EXPECT(dos33_pairs(disk, sizeof disk, 35, 0, out, sizeof out, &n) == DOS33_OFF_DISC);
    n = 99;
    EXPECT(dos33_pair_run(disk, sizeof disk - 1, 35, 0, run, 1, &n) == DOS33_OFF_SIZE);
    EXPECT(dos33_pair_run(disk, sizeof disk, 35, 0, run, 1, &n) == DOS33_OFF_DISC);
    EXPECT(dos33_pair_run(disk, sizeof disk, 18, 2, run, 1, &n) == DOS33_TRAY_SHORT);
    EXPECT(n == 99 && run[0].track_number == 77 && run[0].sector_number == 78);
    EXPECT(dos33_pair_run(disk, sizeof disk, 18, 2, run, 3, &n) == 0);
    EXPECT(n == 2 && run[0].track_number == 18 && run[0].sector_number == 3);
    EXPECT(run[1].track_number == 18 && run[1].sector_number == 4);
    EXPECT(run[2].track_number == 77 && run[2].sector_number == 78);
    EXPECT(sizeof run == 6 && DOS33_PAIR_RUN_MOST == 122 && DOS33_PAIRS_MOST == 244);
    /* A list to its end, in space for that many. */
    memset(at(34, 15), 34, 256);
    EXPECT(dos33_pair_run(disk, sizeof disk, 34, 15, full, DOS33_PAIR_RUN_MOST - 1, &n) == DOS33_TRAY_SHORT);
    EXPECT(n == 2 && full[0].track_number == 0);
    EXPECT(dos33_pair_run(disk, sizeof disk, 34, 15, full, DOS33_PAIR_RUN_MOST, &n) == 0);
    EXPECT(n == DOS33_PAIR_RUN_MOST && full[n - 1].track_number == 34 && full[n - 1].sector_number == 34);
    EXPECT(dos33_pairs(disk, sizeof disk, 34, 15, out, DOS33_PAIRS_MOST - 1, &n) == DOS33_TRAY_SHORT);
    EXPECT(dos33_pairs(disk, sizeof disk, 34, 15, out, DOS33_PAIRS_MOST, &n) == 0);
    EXPECT(n == DOS33_PAIRS_MOST && out[n - 1] == 34);
    EXPECT(dos33_file(disk, sizeof disk, 0, out, sizeof out, &n) == 0);
    EXPECT(n == 300 && memcmp(out, data, 300) == 0);
    EXPECT(dos33_fetch(disk, sizeof disk, name, 4, out, sizeof out, &n) == 0 && n == 300);
    EXPECT(dos33_fetch(disk, sizeof disk, name, 3, out, sizeof out, &n) == DOS33_NOT_ON_ROLL);
    EXPECT(dos33_survey(disk, sizeof disk, f, DOS33_SURVEY_FIELDS) == 0);
    EXPECT(f[0] == 254 && f[1] == 1 && f[5] == 4 && f[6] == 2);
    /* The VTOC, a page, a list and two data sectors, each held once. */
    f[3] = 66;
    EXPECT(dos33_holders(disk, sizeof disk, f, DOS33_HOLDERS_FIELDS - 1) == DOS33_TRAY_SHORT && f[3] == 66);
    EXPECT(dos33_holders(disk, sizeof disk, f, DOS33_HOLDERS_FIELDS) == 0);
    EXPECT(f[0] == 555 && f[1] == 5 && f[2] == 0 && f[3] == 0 && f[4] == 1);
    /* The list names one of them twice, and the map calls it free. */
    at(18, 2)[15] = 3;
    at(17, 0)[56 + 4 * 18 + 1] = 0x08;
    EXPECT(dos33_holders(disk, sizeof disk, f, DOS33_HOLDERS_FIELDS) == 0);
    EXPECT(f[0] == 556 && f[1] == 3 && f[2] == 1 && f[3] == 1 && f[4] == 0);
    at(18, 2)[15] = 4;
    at(17, 0)[56 + 4 * 18 + 1] = 0;
    EXPECT(dos33_window(disk, sizeof disk, image, 0, 1, 18, 2, out, sizeof out, &n) == 0);
    EXPECT(n == 256 && memcmp(out, at(18, 2), 256) == 0);

    /* Nibbles and back. */
    EXPECT(dos33_nibblize(disk, sizeof disk, stream, sizeof stream, &n) == 0);
    EXPECT(n == DOS33_STREAM_SIZE);
    EXPECT(dos33_recognize_prologue(stream, sizeof stream) == 0x96);
    EXPECT(dos33_denibblize(stream, sizeof stream, image, sizeof image, &n) == 0);
    EXPECT(n == DOS33_DISK_SIZE && memcmp(disk, image, sizeof disk) == 0);
    EXPECT(dos33_sector(stream, sizeof stream, 254, 18, 14, out, sizeof out, &n) == 0);
    EXPECT(n == 256 && memcmp(out, at(18, 8), 256) == 0);
    EXPECT(dos33_sector(stream, sizeof stream, 1, 18, 14, out, sizeof out, &n) == DOS33_ABSENT);
    EXPECT(dos33_encode_sector(at(0, 0), 256, out, sizeof out, &n) == 0);
    EXPECT(n == DOS33_NIBBLES_SIZE && out[0] == 0x96 && out[342] == 0x96);

    /* The archive, stepped through where it stands. */
    EXPECT(dos33_archive_write(disk, sizeof disk, archive, sizeof archive, &n) == 0 && n == 1024);
    EXPECT(dos33_archive_check(image, sizeof image, archive, n) == 0);
    EXPECT(dos33_archive_open(archive, n, f, DOS33_OPEN_FIELDS) == 0);
    EXPECT(f[0] == 254 && f[1] == 1 && f[2] == 4);
    blocks = n;
    block = f[1];
    EXPECT(dos33_archive_entry(archive, blocks, block, f, DOS33_STEP_FIELDS) == 0);
    EXPECT(f[0] == 1 && f[1] == 0 && f[3] == DOS33_BINARY && f[4] == 1 && f[5] == 4 && f[6] == 3 && f[7] == 300);
    EXPECT(memcmp(archive + 256 * block + DOS33_ARCHIVE_NAME, name, 4) == 0);
    EXPECT(memcmp(archive + 256 * block + DOS33_ARCHIVE_RAW_NAME, at(17, 15) + 14, DOS33_RAW_NAME_SIZE) == 0);
    /* A high bit of the name: it is shown as before, and the archive is another. */
    at(17, 15)[14] ^= 0x80;
    EXPECT(dos33_catalog(disk, sizeof disk, out, sizeof out, &n) == 0);
    EXPECT(n == 37 && memcmp(out, listed, 37) == 0);
    EXPECT(dos33_fetch(disk, sizeof disk, name, 4, out, sizeof out, &n) == 0 && n == 300);
    EXPECT(dos33_archive_check(disk, sizeof disk, archive, blocks) == DOS33_NOT_ITS_RETURN);
    at(17, 15)[14] ^= 0x80;
    EXPECT(dos33_archive_check(disk, sizeof disk, archive, blocks) == 0);
    EXPECT(dos33_archive_step(archive, blocks, block, g, DOS33_STEP_FIELDS) == 0);
    EXPECT(memcmp(f, g, sizeof g) == 0);
    EXPECT(dos33_archive_step(archive, blocks, f[1], g, DOS33_STEP_FIELDS) == 0);
    for (k = 0; k < DOS33_STEP_FIELDS; k++) EXPECT(g[k] == 0);
    g[0] = 66;
    EXPECT(dos33_archive_step(archive, blocks, block, g, DOS33_STEP_FIELDS - 1) == DOS33_TRAY_SHORT);
    EXPECT(g[0] == 66);
    EXPECT(dos33_archive_step(archive, blocks, UINT64_MAX, g, DOS33_STEP_FIELDS) == 0 && g[0] == 0);
    for (k = 0, block = f[2], left = f[7]; block != 0; k += size, left -= size) {
        const uint8_t *b = archive + 256 * block;
        size = left < 254 ? left : 254;
        EXPECT(memcmp(b + 2, data + k, size) == 0);
        block = b[0] + 256u * b[1];
    }
    EXPECT(k == 300 && left == 0);
    EXPECT(dos33_archive_entry(archive, blocks, 2, f, DOS33_STEP_FIELDS) == 0 && f[0] == 0);
    archive[600] ^= 1;
    EXPECT(dos33_archive_check(disk, sizeof disk, archive, blocks) == DOS33_NOT_ITS_RETURN);
    archive[600] ^= 1;

    /* The catalog on another track: the first page at 0/9, where bytes 1 and 2 of the VTOC say. */
    memcpy(at(0, 9), at(17, 15), 256);
    memset(at(17, 15), 0, 256);
    at(17, 0)[1] = 0;
    at(17, 0)[2] = 9;
    EXPECT(dos33_vtoc(disk, sizeof disk, f, DOS33_VTOC_FIELDS) == 0 && f[0] == 0 && f[1] == 9);
    EXPECT(dos33_catalog(disk, sizeof disk, out, sizeof out, &n) == 0 && n == 37);
    EXPECT(dos33_fetch(disk, sizeof disk, name, 4, out, sizeof out, &n) == 0 && n == 300);
    EXPECT(dos33_archive_check(disk, sizeof disk, archive, blocks) == 0);
    at(17, 0)[1] = 35;
    EXPECT(dos33_vtoc(disk, sizeof disk, f, DOS33_VTOC_FIELDS) == 0 && f[0] == 35);
    EXPECT(dos33_catalog(disk, sizeof disk, out, sizeof out, &n) == DOS33_OFF_DISC);
    EXPECT(dos33_archive_check(disk, sizeof disk, archive, blocks) == DOS33_OFF_DISC);
    memcpy(at(17, 15), at(0, 9), 256);
    memset(at(0, 9), 0, 256);
    at(17, 0)[1] = 17;
    at(17, 0)[2] = 15;
    EXPECT(dos33_archive_check(disk, sizeof disk, archive, blocks) == 0);

    /* A second file, beside the locked one. The map calls 20/15 and 20/14 free, and no more. */
    memcpy(image, disk, sizeof disk);
    EXPECT(dos33_save(image, sizeof image, other, 5, 0x4000, data, 200) == DOS33_NO_SPACE);
    EXPECT(memcmp(image, disk, sizeof disk) == 0);
    image[4096 * 17 + 56 + 4 * 20] = 0xC0;
    image[4096 * 17 + 48] = 18;
    /* One save takes them; two need more. */
    f[4] = 66;
    EXPECT(dos33_forecast(image, sizeof image, plan, 2, f, DOS33_FORECAST_FIELDS + 1) == DOS33_TRAY_SHORT && f[4] == 66);
    EXPECT(dos33_forecast(image, sizeof image, plan, 2, f, DOS33_FORECAST_FIELDS + 2) == 0);
    EXPECT(f[0] == 1 && f[1] == 1 && f[2] == 1 && f[3] == 0 && f[4] == 1);
    EXPECT(dos33_forecast(image, sizeof image, plan, DOS33_PLAN_MOST + 1, f, sizeof f / sizeof *f) == DOS33_PLAN_LONG);
    EXPECT(dos33_save(image, sizeof image, name, 4, 0x4000, data, 200) == DOS33_NAME_TAKEN);
    EXPECT(dos33_save(image, sizeof image, other, 6, 0x4000, data, 200) == DOS33_UNWRITABLE_NAME);
    EXPECT(dos33_save(image, sizeof image, other, 5, 0x4000, data, 253) == DOS33_NO_SPACE);
    EXPECT(dos33_save(image, sizeof image, other, 5, 0x4000, data, 200) == 0);
    EXPECT(image[4096 * 17 + 48] == 20 && image[4096 * 17 + 49] == 1 && image[4096 * 17 + 56 + 4 * 20] == 0);
    EXPECT(dos33_fetch(image, sizeof image, other, 5, out, sizeof out, &n) == 0);
    EXPECT(n == 200 && memcmp(out, data, 200) == 0);
    EXPECT(dos33_lists(image, sizeof image, 1, out, sizeof out, &n) == 0);
    EXPECT(n == 2 && out[0] == 20 && out[1] == 15);
    EXPECT(dos33_delete(image, sizeof image, other, 3) == DOS33_NOT_ON_ROLL);
    EXPECT(dos33_delete(image, sizeof image, name, 4) == 0);
    EXPECT(dos33_catalog(image, sizeof image, out, sizeof out, &n) == 0);
    EXPECT(n == 37 && out[0] == 20 && memcmp(out + 5, other, 5) == 0);
    EXPECT(image[4096 * 17 + 256 * 15 + 11] == 0xFF && image[4096 * 17 + 256 * 15 + 43] == 18);
    EXPECT(image[4096 * 17 + 56 + 4 * 18 + 1] == 0x1C);
    /* By a side. OTHER is ours and has two sectors; 18/2 to 18/4 are free. */
    EXPECT(dos33_save_for(image, sizeof image, DOS33_SURVEY, 4, name, 4, 0, data, 1) == DOS33_OTHER_SIDE);
    EXPECT(dos33_save_for(image, sizeof image, DOS33_OURS, 3, name, 4, 0, data, 1) == DOS33_OVER_LIMIT);
    EXPECT(dos33_save_for(image, sizeof image, DOS33_SURVEY, 1, survey, 3, 0, data, 252) == DOS33_OVER_LIMIT);
    EXPECT(dos33_save_for(image, sizeof image, DOS33_SURVEY, 2, survey, 3, 0, data, 252) == 0);
    EXPECT(dos33_fetch(image, sizeof image, survey, 3, out, sizeof out, &n) == 0);
    EXPECT(n == 252 && memcmp(out, data, 252) == 0);
    EXPECT(dos33_delete_for(image, sizeof image, DOS33_OURS, 4, survey, 3) == DOS33_OTHER_SIDE);
    EXPECT(dos33_delete_for(image, sizeof image, DOS33_SURVEY, 0, survey, 3) == 0);
    EXPECT(dos33_delete_for(image, sizeof image, DOS33_SURVEY, 0, survey, 3) == DOS33_NOT_ON_ROLL);
    /* The map calls a held sector free. */
    image[4096 * 17 + 56 + 4 * 20] = 0x80;
    EXPECT(dos33_save(image, sizeof image, name, 0, 0, data, 0) == DOS33_NOT_CLEAN);
    EXPECT(dos33_delete(image, sizeof image, other, 5) == DOS33_NOT_CLEAN);
    EXPECT(dos33_save_for(image, sizeof image, DOS33_OURS, 0, survey, 3, 0, data, 1) == DOS33_NOT_CLEAN);
    EXPECT(dos33_delete_for(image, sizeof image, DOS33_OURS, 0, survey, 3) == DOS33_NOT_CLEAN);
    EXPECT(dos33_forecast(image, sizeof image, plan, 2, f, DOS33_FORECAST_FIELDS + 2) == DOS33_NOT_CLEAN);

    /* 13 sectors a track: sector 12 of track 17 ends in FFh. */
    size = thirteen();
    field(17, 12)[17] = 0xBA;
    field(17, 12)[18] = 0xBA;
    field(17, 12)[17 + 409] = 0xFF;
    field(17, 12)[17 + 410] = 0xFF;
    EXPECT(dos33_recognize_prologue(stream, size) == 0xB5);
    memset(image, 1, sizeof image);
    EXPECT(dos33_denibblize_13(stream, size, image, DOS33_DISK_SIZE_13, &n) == 0);
    EXPECT(n == DOS33_DISK_SIZE_13 && n == 256 * DOS33_SECTORS_PER_TRACK_13 * DOS33_TRACKS);
    for (k = 0; k < n; k++) EXPECT(image[k] == (k == 256 * (13 * 17 + 12) + 255 ? 0xFF : 0));
    EXPECT(image[n] == 1);
    EXPECT(dos33_sector_13(stream, size, 254, 17, 12, out, DOS33_SECTOR_SIZE, &n) == 0);
    EXPECT(n == 256 && out[254] == 0 && out[255] == 0xFF);
    EXPECT(dos33_denibblize(stream, size, out, sizeof out, &n) == DOS33_ABSENT);
    n = 99;
    EXPECT(dos33_denibblize_13(stream, size, image, DOS33_DISK_SIZE_13 - 1, &n) == DOS33_TRAY_SHORT);
    EXPECT(dos33_denibblize_13(stream, size - 1, image, sizeof image, &n) == DOS33_ABSENT);
    EXPECT(dos33_sector_13(stream, size, 254, 17, 13, out, sizeof out, &n) == DOS33_ABSENT);
    EXPECT(dos33_sector_13(stream, size, 254, 17, 12, out, 255, &n) == DOS33_TRAY_SHORT);
    field(17, 12)[17 + 410] = 0xAB;
    EXPECT(dos33_denibblize_13(stream, size, image, sizeof image, &n) == DOS33_DATA_SUM);
    EXPECT(dos33_sector_13(stream, size, 254, 0, 0, out, sizeof out, &n) == DOS33_DATA_SUM);
    field(34, 12)[10] ^= 1;
    EXPECT(dos33_denibblize_13(stream, size, image, sizeof image, &n) == DOS33_ADDRESS_SUM);
    EXPECT(dos33_sector_13(stream, size, 254, 0, 0, out, sizeof out, &n) == DOS33_ADDRESS_SUM);
    EXPECT(n == 99 && out[255] == 0xFF && image[256 * (13 * 17 + 12) + 255] == 0xFF);
    EXPECT(dos33_vtoc(image, DOS33_DISK_SIZE_13, f, DOS33_VTOC_FIELDS) == DOS33_NO_TABLE);
    image[256 * 13 * 17 + 52] = 35;
    image[256 * 13 * 17 + 53] = 13;
    image[256 * 13 * 17 + 57] = 0x0F;
    EXPECT(dos33_vtoc(image, DOS33_DISK_SIZE_13, f, DOS33_VTOC_FIELDS) == 0);
    EXPECT(f[8] == 13 && f[10] == 1 && f[11] == 454 && f[12] == 100);
    EXPECT(dos33_window(image, DOS33_DISK_SIZE_13, disk, 0, 1, 17, 12, out, sizeof out, &n) == 0);
    EXPECT(n == 256 && out[255] == 0xFF);
    EXPECT(dos33_window(image, DOS33_DISK_SIZE_13, disk, 0, 1, 17, 13, out, sizeof out, &n) == DOS33_OFF_DISC);
    EXPECT(dos33_nibblize(image, DOS33_DISK_SIZE_13, stream, sizeof stream, &n) == DOS33_OFF_SIZE);
    EXPECT(dos33_save(image, DOS33_DISK_SIZE_13, other, 5, 0, data, 1) == DOS33_OFF_SIZE);
    EXPECT(dos33_delete(image, DOS33_DISK_SIZE_13, other, 5) == DOS33_OFF_SIZE);
    EXPECT(dos33_save_for(image, DOS33_DISK_SIZE_13, DOS33_OURS, 9, other, 5, 0, data, 1) == DOS33_OFF_SIZE);
    EXPECT(dos33_delete_for(image, DOS33_DISK_SIZE_13, DOS33_OURS, 9, other, 5) == DOS33_OFF_SIZE);
    EXPECT(dos33_forecast(image, DOS33_DISK_SIZE_13, plan, 2, f, DOS33_FORECAST_FIELDS + 2) == DOS33_OFF_SIZE);

    /* Nothing lent changes under a refusal. */
    n = 99;
    EXPECT(dos33_file(disk, sizeof disk, 0, small, sizeof small, &n) == DOS33_TRAY_SHORT);
    EXPECT(n == 99 && small[0] == 1 && small[3] == 4);
    f[0] = 77;
    EXPECT(dos33_format_from_data(disk, 8, f, DOS33_FORMAT_FIELDS) == DOS33_CUT_SHORT && f[0] == 77);
    EXPECT(dos33_format_from_data(disk, sizeof disk, f, DOS33_FORMAT_FIELDS) == 0 && f[0] == 0);

    /* The word of a number; a number that no refusal has has none. */
    memset(out, 1, sizeof out);
    EXPECT(dos33_refusal_word(DOS33_OTHER_SIDE, out, DOS33_WORD_MOST - 1, &n) == DOS33_TRAY_SHORT);
    EXPECT(n == 99 && out[0] == 1);
    EXPECT(dos33_refusal_word(DOS33_OTHER_SIDE, out, DOS33_WORD_MOST, &n) == 0);
    EXPECT(n == DOS33_WORD_MOST && memcmp(out, "other side's name", n) == 0);
    EXPECT(dos33_refusal_word(DOS33_RING, out, sizeof out, &n) == 0);
    EXPECT(n == 4 && memcmp(out, "ringr side's name", DOS33_WORD_MOST) == 0);
    EXPECT(dos33_refusal_word(DOS33_ACCEPTED, out, 0, &n) == 0 && n == 0);
    EXPECT(dos33_refusal_word(19, out, 0, &n) == 0 && n == 0 && out[0] == 'r');

    puts("good");
    return 0;
}
