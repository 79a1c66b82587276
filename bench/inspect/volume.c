// Makes a volume of 1,048,576 sectors with 65,528 inodes, and times the reading of its i-list, maps and directories.
//
//   volume make KIND FILE        few: 10 files in the root; many: 64,000 files of 12 sectors in 640 directories; directories: 7,401 directories of
//                                138 sectors, whose slots name 58,000 empty files some 560 times each
//   volume read FILE             reads the super-block, and each sector of the i-list, each block of addresses and each directory's sector once,
//                                from memory; prints milliseconds, the sectors that it read, and a sum of them
//   volume pread FILE            the same by a positioned read each, from the file
//   volume forget FILE           lets the system forget what it keeps of the file in memory
#define _GNU_SOURCE
#include <fcntl.h>
#include <stdint.h>
#include <stdio.h>
#include <stdlib.h>
#include <string.h>
#include <time.h>
#include <unistd.h>

enum { SECTORS = 1048576, INODES = 65528, ISIZE = INODES / 8 + 2, FILES = 100 };

static uint8_t *disk;
static uint32_t next_block = ISIZE;

static void put(uint8_t *at, int bytes, uint32_t value) {
    for (int i = 0; i < bytes; i++) at[i] = (uint8_t)(value >> (8 * i));
}

static uint32_t get(const uint8_t *at, int bytes) {
    uint32_t value = 0;
    for (int i = bytes - 1; i >= 0; i--) value = value << 8 | at[i];
    return value;
}

static uint8_t *sector(uint32_t s) { return disk + 512ull * s; }

static uint8_t *inode(uint32_t i) { return sector(2 + (i - 1) / 8) + 64 * ((i - 1) % 8); }

// An inode of this mode and size with all its sectors, and the block of addresses if it needs one.
static void make(uint32_t i, uint32_t mode, uint32_t links, uint32_t size) {
    uint8_t *n = inode(i);
    put(n, 2, mode);
    put(n + 2, 2, links);
    put(n + 8, 4, size);
    uint32_t count = (size + 511) / 512;
    if (count > 10) put(n + 42, 3, next_block++);
    for (uint32_t k = 0; k < count; k++) {
        if (k < 10) put(n + 12 + 3 * k, 3, next_block++);
        else put(sector(get(n + 42, 3)) + 4 * (k - 10), 4, next_block++);
    }
    put(n + 48, 4, 1);
}

static uint32_t body(const uint8_t *n, uint32_t k) {
    return k < 10 ? get(n + 12 + 3 * k, 3) : get(sector(get(n + 42, 3)) + 4 * (k - 10), 4);
}

static void slot(uint32_t directory, uint32_t k, uint32_t i, const char *name) {
    uint8_t *at = sector(body(inode(directory), k / 32)) + 16 * (k % 32);
    put(at, 2, i);
    strncpy((char *)at + 2, name, 14);
}

static void make_super(void) {
    uint8_t *s = sector(1);
    put(s, 2, ISIZE);
    put(s + 2, 4, SECTORS);
    memcpy(s + 434, "VOLA00", 6);
    put(s + 440, 4, 1);
}

// Directories with all the slots that they can have: the root names the first ones, the first of these the rest, and each names files after that.
static void make_directories(void) {
    enum { DIRECTORIES = 7400, EMPTY = 58000, SLOTS = 4416, FIRST = 3, LOW = 4000 };
    char name[15];
    uint32_t next_file = 0;
    make_super();
    make(2, 0040755, 2 + LOW, 16 * SLOTS);
    for (uint32_t d = 0; d < DIRECTORIES; d++) make(FIRST + d, 0040755, d == 0 ? 2 + DIRECTORIES - LOW : 2, 16 * SLOTS);
    for (uint32_t k = 0; k < EMPTY; k++) make(FIRST + DIRECTORIES + k, 0100644, 0, 0);
    for (uint32_t d = 0; d <= DIRECTORIES; d++) {
        uint32_t ino = d == DIRECTORIES ? 2 : FIRST + d;
        uint32_t from = ino == 2 ? 0 : LOW, to = ino == 2 ? LOW : ino == FIRST ? DIRECTORIES : LOW;
        slot(ino, 0, ino, ".");
        slot(ino, 1, ino == 2 || d < LOW ? 2 : FIRST, "..");
        for (uint32_t k = 2; k < SLOTS; k++) {
            uint32_t named = from < to ? FIRST + from++ : FIRST + DIRECTORIES + next_file++ % EMPTY;
            snprintf(name, sizeof name, "n%u", k);
            slot(ino, k, named, name);
            if (named >= FIRST + DIRECTORIES) put(inode(named) + 2, 2, get(inode(named) + 2, 2) + 1);
        }
    }
}

static void make_volume(int many) {
    char name[15];
    make_super();
    uint32_t directories = many ? 640 : 0, files = many ? FILES : 10;
    uint32_t direct = many ? 0 : files;
    make(2, 0040755, 2 + directories, 16 * (2 + directories + direct));
    slot(2, 0, 2, ".");
    slot(2, 1, 2, "..");
    uint32_t i = 3;
    for (uint32_t k = 0; k < direct; k++, i++) {
        make(i, 0100644, 1, 138 * 512);
        snprintf(name, sizeof name, "f%u", k);
        slot(2, 2 + k, i, name);
    }
    for (uint32_t d = 0; d < directories; d++) {
        uint32_t up = i++;
        make(up, 0040755, 2, 16 * (2 + files));
        snprintf(name, sizeof name, "d%u", d);
        slot(2, 2 + d, up, name);
        slot(up, 0, up, ".");
        slot(up, 1, 2, "..");
        for (uint32_t k = 0; k < files; k++, i++) {
            make(i, 0100644, 1, 12 * 512);
            snprintf(name, sizeof name, "f%u", k);
            slot(up, 2 + k, i, name);
        }
    }
}

static uint64_t sum, reads;

// The file that is read, none where memory is.
static int file_read = -1;

static void read_sector(uint32_t s, uint8_t *into) {
    if (file_read < 0) memcpy(into, sector(s), 512);
    else if (pread(file_read, into, 512, 512ll * s) != 512) exit(1);
    sum += into[0] + into[511];
    reads++;
}

static void read_all(void) {
    uint8_t list[512], map[512], slots[512];
    read_sector(1, list);
    for (uint32_t s = 2, isize = get(list, 2); s < isize; s++) {
        read_sector(s, list);
        for (const uint8_t *n = list; n < list + 512; n += 64) {
            if (get(n, 2) == 0) continue;
            uint32_t single = get(n + 42, 3);
            if (single != 0) read_sector(single, map);
            if (get(n, 2) / 4096 != 4) continue;
            for (uint32_t k = 0; k < (get(n + 8, 4) + 511) / 512; k++)
                read_sector(k < 10 ? get(n + 12 + 3 * k, 3) : get(map + 4 * (k - 10), 4), slots);
        }
    }
}

static void time_reading(void) {
    struct timespec start, end;
    clock_gettime(CLOCK_MONOTONIC, &start);
    read_all();
    clock_gettime(CLOCK_MONOTONIC, &end);
    double ms = (end.tv_sec - start.tv_sec) * 1e3 + (end.tv_nsec - start.tv_nsec) / 1e6;
    printf("%.1f %llu %llu\n", ms, (unsigned long long)reads, (unsigned long long)sum);
}

int main(int argc, char **argv) {
    if (argc < 3) return 1;
    if (strcmp(argv[1], "forget") == 0) {
        int fd = open(argv[2], O_RDWR);
        return fd < 0 || fdatasync(fd) != 0 || posix_fadvise(fd, 0, 0, POSIX_FADV_DONTNEED) != 0;
    }
    if (strcmp(argv[1], "pread") == 0) {
        file_read = open(argv[2], O_RDONLY);
        if (file_read < 0) return 1;
        time_reading();
        return 0;
    }
    disk = calloc(SECTORS, 512);
    if (disk == NULL) return 1;
    if (strcmp(argv[1], "make") == 0 && argc == 4) {
        if (strcmp(argv[2], "directories") == 0) make_directories();
        else make_volume(strcmp(argv[2], "many") == 0);
        FILE *file = fopen(argv[3], "wb");
        return file == NULL || fwrite(disk, 512, SECTORS, file) != SECTORS || fclose(file) != 0;
    }
    FILE *file = fopen(argv[2], "rb");
    if (file == NULL || fread(disk, 512, SECTORS, file) != SECTORS) return 1;
    time_reading();
    return 0;
}
