/* What a keep has to do at least: find the lowest free buffer and the lowest free entry by words of 64 bits, copy 512 bytes
   into that buffer, and store one word. After each, the buffer and the entry that were taken first are given back, so that the
   board stays as full as it was. */
#include <stdint.h>
#include <stdio.h>
#include <string.h>
#include <time.h>

enum { MOST = 2048, TURNS = 1000000 };

static unsigned char buffers[MOST][512];
static uint64_t words[MOST + 1];
static uint64_t free_buffers[MOST / 64], free_entries[MOST / 64];
static int taken_buffers[MOST], taken_entries[MOST];

static void give(uint64_t *set, int number) { set[number / 64] |= (uint64_t)1 << number % 64; }

static int take_lowest(uint64_t *set) {
    for (int at = 0; at < MOST / 64; at++)
        if (set[at] != 0) {
            int bit = __builtin_ctzll(set[at]);
            set[at] &= set[at] - 1;
            return 64 * at + bit;
        }
    return 0;
}

static double now(void) {
    struct timespec t;
    clock_gettime(CLOCK_MONOTONIC, &t);
    return t.tv_sec * 1e9 + t.tv_nsec;
}

/* The time of a keep in nanoseconds, where so many entries are taken before and after each. */
static double time_board(int count, int entries) {
    unsigned char bytes[512];
    memset(bytes, 7, sizeof bytes);
    memset(free_buffers, 0, sizeof free_buffers);
    memset(free_entries, 0, sizeof free_entries);
    for (int i = 0; i < count; i++)
        give(free_buffers, i);
    for (int i = 0; i < count - 1; i++)
        give(free_entries, i);
    for (int i = 0; i < entries; i++) {
        taken_buffers[i] = take_lowest(free_buffers);
        taken_entries[i] = take_lowest(free_entries);
    }
    double start = now();
    for (int turn = 0; turn < TURNS; turn++) {
        int buffer = take_lowest(free_buffers), entry = take_lowest(free_entries);
        memcpy(buffers[buffer], bytes, 512);
        words[entry + 2] = (uint64_t)1 << 63 | (uint64_t)buffer << 32 | (uint64_t)turn;
        __asm__ volatile("" ::: "memory");
        if (entries == 0) {
            give(free_buffers, buffer);
            give(free_entries, entry);
        } else {
            int oldest = turn % entries;
            give(free_buffers, taken_buffers[oldest]);
            give(free_entries, taken_entries[oldest]);
            taken_buffers[oldest] = buffer;
            taken_entries[oldest] = entry;
        }
    }
    return (now() - start) / TURNS;
}

int main(void) {
    static const int counts[] = {4, 64, 2048};
    for (int i = 0; i < 3; i++) {
        printf("%d 0 %.0f\n", counts[i], time_board(counts[i], 0));
        printf("%d %d %.0f\n", counts[i], counts[i] - 2, time_board(counts[i], counts[i] - 2));
    }
    return 0;
}
