/* A host in C whose trace arrives over a serial line, in chunks of five bytes. It ends with the card and the picture of one
 * whole run; broken off in the middle, with number 10 and what was drawn by then. It says what it sees, and ends with 1 where
 * something is not as promised. */
#include <stdio.h>
#include <stdlib.h>
#include <string.h>
#include "zevkholtai.h"

enum { SIDE = 64, SIZE = SIDE * SIDE, CHUNK = 5, BARS = 8 };
enum { SETTING = 3, ENTRIES = SETTING + BARS, HEADER = 16, ENTRY = 12 };

static uint8_t trace[HEADER + ENTRY * ENTRIES], ran[SIZE], fed[SIZE];

static void promised(int holds, const char *what) {
    if (!holds) {
        printf("not as promised: %s\n", what);
        exit(1);
    }
}

static uint32_t record(uint32_t used, uint8_t space, uint32_t address, uint32_t data) {
    struct zevkholtai_checked t = zevkholtai_append(trace, sizeof trace, used, space, 15, address, data);
    promised(t.number == 0 && t.length == used + ENTRY, "a recorded write");
    return t.length;
}

/* A bar of one row for every eight rows. */
static void record_bars(void) {
    uint32_t used = zevkholtai_start(trace, sizeof trace, SIZE).length;
    used = record(used, ZEVKHOLTAI_SPACE_REGISTER, ZEVKHOLTAI_REGISTER_FOREGROUND, 0x40404040);
    used = record(used, ZEVKHOLTAI_SPACE_REGISTER, ZEVKHOLTAI_REGISTER_FILL_MASK, 0xFFFFFFFF);
    used = record(used, ZEVKHOLTAI_SPACE_REGISTER, ZEVKHOLTAI_REGISTER_MODE, ZEVKHOLTAI_MODE_TRANSPARENT_FILL);
    for (int i = 0; i < BARS; i++) used = record(used, ZEVKHOLTAI_SPACE_FRAME, 8 * i * SIDE, SIDE - 1);
    promised(used == sizeof trace, "a trace of this length");
}

/* Feeds the first `size` bytes to a new reader, from reset, on an empty picture. Every other chunk has no byte. What a chunk
 * leaves is stored, and handed to the next. */
static struct zevkholtai_fed feed(size_t size) {
    struct zevkholtai_fed line = {.reader = zevkholtai_new_reader()};
    zevkholtai_reset(&line.card, 0);
    memset(fed, 0, SIZE);
    for (size_t at = 0; at < size; at += CHUNK) {
        size_t part = size - at < CHUNK ? size - at : CHUNK;
        line = zevkholtai_chunk(line.reader, line.card, trace + at, part, fed, SIZE);
        line = zevkholtai_chunk(line.reader, line.card, trace, 0, fed, SIZE);
        promised(line.reader.number == 0, "a chunk that is accepted");
    }
    line.reader = zevkholtai_end(line.reader);
    return line;
}

int main(void) {
    record_bars();
    struct zevkholtai_card card;
    zevkholtai_reset(&card, 0);
    struct zevkholtai_ran r = zevkholtai_run(&card, trace + HEADER, sizeof trace - HEADER, ran, SIZE, ENTRIES);
    struct zevkholtai_fed whole = feed(sizeof trace);
    promised(r.number == 0 && whole.reader.number == 0, "a trace that is accepted");
    promised(whole.reader.applied == r.entries && whole.reader.pixels == r.pixels && whole.reader.changed == r.changed, "the totals of a run");
    promised(memcmp(&whole.card, &card, sizeof card) == 0 && memcmp(fed, ran, SIZE) == 0, "the card and picture of a run");
    printf("in chunks of %d bytes: number %u, %u entries, %u pixels, %u changed, card and picture as after one run\n", CHUNK,
           (unsigned)whole.reader.number, (unsigned)whole.reader.applied, (unsigned)whole.reader.pixels, (unsigned)whole.reader.changed);

    /* Broken off in the fifth bar, whose entry never is whole: four bars are drawn, and stay. */
    struct zevkholtai_fed part = feed(HEADER + ENTRY * (SETTING + 4) + 7);
    promised(part.reader.number == 10, "an end call with bytes owed");
    promised(part.reader.applied == SETTING + 4 && part.reader.pixels == 4 * SIDE, "the totals of four bars");
    promised(memcmp(fed, ran, SIZE / 2) == 0 && fed[SIZE / 2] == 0, "four bars that stay");
    struct zevkholtai_fed after = zevkholtai_chunk(part.reader, part.card, trace, sizeof trace, fed, SIZE);
    promised(memcmp(&after, &part, sizeof part) == 0 && fed[SIZE / 2] == 0, "a number that sticks");
    printf("broken off: number %u, %u entries, %u pixels, which stay\n", (unsigned)part.reader.number,
           (unsigned)part.reader.applied, (unsigned)part.reader.pixels);
    return 0;
}
