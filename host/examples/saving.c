/* Saves, lists and deletes on an empty disk, also by two sides. From host/, with the library made:
       cc -I . examples/saving.c ../crates/host/out/libhost.a -o saving && ./saving
   With the name of a file it keeps the disk there. What it prints stands in saving.txt, and the tests hold it to that. */
#include "dos33.h"

#include <stdio.h>
#include <string.h>

static uint8_t disk[DOS33_DISK_SIZE], data[DOS33_SAVE_MOST + 1], roll[DOS33_CATALOG_MOST];

/* An empty disk of volume 254: the VTOC at 17/0, pages from 17/15 down to 17/1. Tracks 0 and 17 are in use. */
static void format(void) {
    uint8_t *vtoc = disk + 4096 * 17;
    unsigned k;
    vtoc[1] = 17;
    vtoc[2] = 15;
    vtoc[3] = 3;
    vtoc[6] = 254;
    vtoc[39] = DOS33_PAIR_RUN_MOST;
    vtoc[48] = 17;
    vtoc[49] = 1;
    vtoc[52] = DOS33_TRACKS;
    vtoc[53] = DOS33_SECTORS_PER_TRACK;
    vtoc[55] = 1;
    for (k = 1; k < DOS33_TRACKS; k++) {
        if (k != 17) memset(vtoc + 56 + 4 * k, 0xFF, 2);
    }
    for (k = 15; k > 1; k--) {
        vtoc[256 * k + 1] = 17;
        vtoc[256 * k + 2] = (uint8_t)(k - 1);
    }
}

/* Says what came of a call: accepted, or the word of its refusal. */
static void tell(const char *call, const char *name, uint8_t refusal) {
    uint8_t word[DOS33_WORD_MOST];
    uint64_t length = 0;
    dos33_refusal_word(refusal, word, sizeof word, &length);
    printf("%s %s: ", call, name);
    if (refusal == 0) puts("accepted");
    else printf("%.*s (%d)\n", (int)length, (const char *)word, refusal);
}

static void save(const char *name, uint16_t address, size_t size) {
    tell("save", name, dos33_save(disk, sizeof disk, (const uint8_t *)name, strlen(name), address, data, size));
}

static void delete_file(const char *name) {
    tell("delete", name, dos33_delete(disk, sizeof disk, (const uint8_t *)name, strlen(name)));
}

/* By a side, with its limit of sectors. */
static void save_for(uint8_t side, uint64_t limit, const char *name, size_t size) {
    tell("save_for", name, dos33_save_for(disk, sizeof disk, side, limit, (const uint8_t *)name, strlen(name), 0x2000, data, size));
}

static void delete_for(uint8_t side, uint64_t limit, const char *name) {
    tell("delete_for", name, dos33_delete_for(disk, sizeof disk, side, limit, (const uint8_t *)name, strlen(name)));
}

/* The entries: sectors, name, where the first list stands; then what is free, and whether the disk is clean. */
static void list(void) {
    uint64_t length = 0, numbers[DOS33_VTOC_FIELDS] = {0}, holders[DOS33_HOLDERS_FIELDS] = {0}, k;
    dos33_catalog(disk, sizeof disk, roll, sizeof roll, &length);
    for (k = 0; k + 37 <= length; k += 37) {
        const uint8_t *e = roll + k;
        printf("  %03d %.*s at %d/%d\n", e[35] + 256 * e[36], e[4], (const char *)e + 5, e[0], e[1]);
    }
    dos33_vtoc(disk, sizeof disk, numbers, DOS33_VTOC_FIELDS);
    dos33_holders(disk, sizeof disk, holders, DOS33_HOLDERS_FIELDS);
    printf("  %d free, %s\n", (int)numbers[10], holders[4] != 0 ? "clean" : "not clean");
}

int main(int count, char **words) {
    size_t k;
    for (k = 0; k < sizeof data; k++) data[k] = (uint8_t)(k / 256 + k);
    format();
    save("LINE 7", 0x2000, 600);
    save("LINE 8", 0x4000, DOS33_SAVE_MOST);
    save("LINE 9", 0x0803, 0);
    list();
    save("LINE 7", 0x2000, 1);
    save("LINE 10", 0, sizeof data);
    save("LINE 11 ", 0, 1);
    delete_file("LINE 8");
    delete_file("LINE 8");
    list();
    save("LINE 12", 0x6000, 1000);
    list();
    /* Names with S are the survey office's, which has 10 sectors here. */
    save_for(DOS33_SURVEY, 10, "S 1", 1000);
    save_for(DOS33_SURVEY, 10, "S 2", 1021);
    save_for(DOS33_SURVEY, 10, "S 2", 1020);
    save_for(DOS33_SURVEY, 10, "LINE 13", 1);
    delete_for(DOS33_OURS, 100, "S 1");
    delete_for(DOS33_OURS, 100, "LINE 9");
    list();
    if (count > 1) {
        FILE *file = fopen(words[1], "wb");
        if (file == NULL || fwrite(disk, 1, sizeof disk, file) != sizeof disk || fclose(file) != 0) {
            fprintf(stderr, "%s cannot be written\n", words[1]);
            return 1;
        }
    }
    return 0;
}
