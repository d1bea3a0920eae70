/* Leaves two disks of a group as a loss of power leaves them while regions of a mirror are written, and prints these
   regions. Each disk has a plex of the volume, from the public region's first sector on, and a copy of its log behind it;
   the volume was never started.
   - The configuration becomes what a start records: each state EMPTY is ACTIVE, in the half that the toggle does not name,
     and the toggle names that half with the next sequence.
   - Each copy of the log is as a start makes it, but that so many regions are marked dirty, from the first to the last.
   - These regions have other bytes on each disk. All others are equal: they are not written here. */
#include <fcntl.h>
#include <stdint.h>
#include <stdio.h>
#include <stdlib.h>
#include <string.h>
#include <unistd.h>

enum { SECTOR = 512, PRIVATE = 2048, HALF = 1020, FIRST_HALF = 2, MAPS = 32, DIRTY_MAP = 30, PAGE_BITS = 4096 };

static const char fresh[] = "\tstate=EMPTY\n";
static const char running[] = "\tstate=ACTIVE\n";

static void fail(const char *what) {
    perror(what);
    exit(1);
}

static void *room(size_t bytes) {
    void *memory = calloc(bytes, 1);
    if (!memory) fail("memory");
    return memory;
}

static void take(int file, void *into, size_t bytes, uint64_t sector) {
    if (pread(file, into, bytes, (off_t)(sector * SECTOR)) != (ssize_t)bytes) fail("read");
}

static void put(int file, const void *from, size_t bytes, uint64_t sector) {
    if (pwrite(file, from, bytes, (off_t)(sector * SECTOR)) != (ssize_t)bytes) fail("write");
}

static uint64_t number_at(const unsigned char *from, int bytes) {
    uint64_t number = 0;
    for (int i = 0; i < bytes; i++) number = number << 8 | from[i];
    return number;
}

static void put_number(unsigned char *into, int bytes, uint64_t number) {
    for (int i = bytes - 1; i >= 0; i--, number >>= 8) into[i] = (unsigned char)number;
}

static uint64_t whole(uint64_t amount, uint64_t step) {
    return (amount + step - 1) / step * step;
}

/* The text as a start records it, and its length. */
static size_t start_text(const char *text, char *into) {
    size_t length = 0;
    for (const char *found; (found = strstr(text, fresh)); text = found + sizeof fresh - 1) {
        memcpy(into + length, text, (size_t)(found - text));
        length += (size_t)(found - text);
        memcpy(into + length, running, sizeof running - 1);
        length += sizeof running - 1;
    }
    strcpy(into + length, text);
    return length + strlen(text);
}

/* Commits the configuration as a start does. */
static void commit_start(int file) {
    unsigned char toggle[SECTOR];
    take(file, toggle, SECTOR, 1);
    if (memcmp(toggle, "vxtog001", 8) != 0) fail("toggle");
    unsigned half = toggle[16];
    char *text = room(HALF * SECTOR + 1), *started = room(2 * HALF * SECTOR);
    take(file, text, whole(number_at(toggle + 20, 4), SECTOR), FIRST_HALF + half * HALF);
    size_t length = start_text(text, started);
    put(file, started, whole(length, SECTOR), FIRST_HALF + (1 - half) * HALF);
    put_number(toggle + 8, 8, number_at(toggle + 8, 8) + 1);
    toggle[16] = (unsigned char)(1 - half);
    put_number(toggle + 20, 4, length);
    put(file, toggle, SECTOR, 1);
    free(text);
    free(started);
}

/* Which of the dirty regions comes at a place among them. */
static uint64_t region_at(uint64_t place, uint64_t dirty, uint64_t regions) {
    return dirty == 1 ? 0 : place * (regions - 1) / (dirty - 1);
}

/* Writes a copy of the log: its header, and its maps of zeros but for the dirty marks. */
static void put_log(int file, uint64_t sectors, uint64_t region, uint64_t dirty) {
    uint64_t regions = (sectors + region - 1) / region;
    uint64_t map = whole(SECTOR + (regions + 7) / 8, 8192);
    unsigned char *log = room((3 + MAPS) * map);
    memcpy(log, "vxdco020", 8);
    put_number(log + 8, 8, sectors);
    put_number(log + 16, 8, region);
    put_number(log + 24, 4, MAPS);
    unsigned char *pages = log + (3 + DIRTY_MAP) * map + SECTOR;
    for (uint64_t i = 0; i < dirty; i++) {
        uint64_t at = region_at(i, dirty, regions);
        pages[at / PAGE_BITS * SECTOR + at % PAGE_BITS / 8] |= (unsigned char)(1 << at % 8);
    }
    put(file, log, (3 + MAPS) * map, PRIVATE + sectors);
    free(log);
}

/* Fills the dirty regions: each eight bytes tell the region, the sector in it and the disk. */
static void fill_regions(int file, uint64_t sectors, uint64_t region, uint64_t dirty, uint64_t disk) {
    uint64_t regions = (sectors + region - 1) / region;
    unsigned char *bytes = room(region * SECTOR);
    for (uint64_t i = 0; i < dirty; i++) {
        uint64_t at = region_at(i, dirty, regions);
        uint64_t size = (sectors - at * region < region ? sectors - at * region : region) * SECTOR;
        for (uint64_t byte = 0; byte < size; byte += 8) put_number(bytes + byte, 8, at << 24 | byte / SECTOR << 8 | (disk + 1));
        put(file, bytes, size, PRIVATE + at * region);
    }
    free(bytes);
}

int main(int argc, char **argv) {
    if (argc < 5) {
        fprintf(stderr, "usage: dirty SECTORS REGION DIRTY IMAGE..\n");
        return 2;
    }
    uint64_t sectors = strtoull(argv[1], NULL, 10), region = strtoull(argv[2], NULL, 10), dirty = strtoull(argv[3], NULL, 10);
    for (int disk = 0; disk < argc - 4; disk++) {
        int file = open(argv[4 + disk], O_RDWR | O_CLOEXEC);
        if (file < 0) fail(argv[4 + disk]);
        commit_start(file);
        put_log(file, sectors, region, dirty);
        fill_regions(file, sectors, region, dirty, (uint64_t)disk);
        if (fsync(file) < 0 || close(file) < 0) fail(argv[4 + disk]);
    }
    for (uint64_t i = 0; i < dirty; i++) printf("%llu\n", (unsigned long long)region_at(i, dirty, (sectors + region - 1) / region));
    return 0;
}
