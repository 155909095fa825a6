/* A host in C that keeps one card. It fills a picture grey around marks in a held plane, then draws a caliper by exclusive-or
 * from a recorded trace and takes it off again: by the same trace, on the same card; and then a stroke of a waveform; and it
 * answers a console's reads. It says what it sees and what is answered, the pixels enabled and those changed, and ends with 1
 * where something is not as promised. */
#include <stdio.h>
#include <stdlib.h>
#include <string.h>
#include "zevkholtai.h"

enum { SIDE = 64, SIZE = SIDE * SIDE, HELD = 0x80, GREY = 0x40 };

static struct zevkholtai_card card;
static uint8_t vram[SIZE], marks[SIZE], filled[SIZE], trace[16 + 12 * SIDE];

static void promised(int holds, const char *what) {
    if (!holds) {
        printf("not as promised: %s\n", what);
        exit(1);
    }
}

static struct zevkholtai_answer draw(uint8_t space, uint32_t address, uint32_t data) {
    struct zevkholtai_answer a = zevkholtai_write(&card, space, 15, address, data, vram, SIZE);
    promised(a.number == 0, "an accepted write");
    return a;
}

static void set(uint32_t offset, uint32_t value) {
    draw(ZEVKHOLTAI_SPACE_REGISTER, offset, value);
}

/* Fills both halves of the picture; so many pixels must change. */
static void fill(uint32_t changed) {
    struct zevkholtai_answer a = draw(ZEVKHOLTAI_SPACE_FRAME, 0, SIZE / 2 - 1), b = draw(ZEVKHOLTAI_SPACE_FRAME, SIZE / 2, SIZE / 2 - 1);
    for (int i = 0; i < SIZE; i++) promised(vram[i] == (marks[i] | GREY), "a grey pixel with its held plane");
    promised(a.count + b.count == SIZE && a.changed + b.changed == changed, "the pixels of the fill");
    printf("grey fill: %u pixels, %u changed, the held plane as it was\n", (unsigned)(a.count + b.count),
           (unsigned)(a.changed + b.changed));
}

static uint32_t record(uint32_t used, uint8_t space, uint32_t address, uint32_t data) {
    /* this program started the trace, so it need not be judged again at each write */
    struct zevkholtai_checked t = zevkholtai_extend(trace, sizeof trace, used, space, 15, address, data);
    promised(t.number == 0 && t.length == used + 12, "a recorded write");
    return t.length;
}

static int differing(const uint8_t *a, const uint8_t *b) {
    int n = 0;
    for (int i = 0; i < SIZE; i++) n += a[i] != b[i];
    return n;
}

/* A line from column x of row y, as include/zevkholtai.h says: so many columns to the right, and fewer rows up. */
static uint32_t line(int x, int y, int columns, int rows) {
    uint32_t first = (uint32_t)(y * SIDE + x), length = (uint32_t)columns + 1, drawn = 0;
    set(ZEVKHOLTAI_REGISTER_MODE, ZEVKHOLTAI_MODE_TRANSPARENT_LINE_CAP);
    set(ZEVKHOLTAI_REGISTER_BRESENHAM_1, 1u << 16 | 2u * (uint32_t)rows);
    set(ZEVKHOLTAI_REGISTER_BRESENHAM_2, (uint32_t)(1 - SIDE) << 16 | 2u * (uint32_t)(columns - rows));
    set(ZEVKHOLTAI_REGISTER_BRESENHAM_3, (uint32_t)(2 * rows - columns) << 15 | length % 16);
    drawn += draw(ZEVKHOLTAI_SPACE_FRAME, first / 4 * 4, first % 4 << 16 | 0xFFFF).count;
    while (drawn < length) drawn += draw(ZEVKHOLTAI_SPACE_REGISTER, ZEVKHOLTAI_REGISTER_CONTINUE, 0xFFFF).count;
    return drawn;
}

/* A console reads a register, one that can only be written, and pixels; and two operations are made one. */
static void console_reads(void) {
    struct zevkholtai_reading mode = zevkholtai_read(card, ZEVKHOLTAI_REGISTER_MODE);
    struct zevkholtai_reading source = zevkholtai_read(card, ZEVKHOLTAI_REGISTER_COPY_SOURCE);
    promised(mode.number == ZEVKHOLTAI_NUMBER_ACCEPTED && mode.value == ZEVKHOLTAI_MODE_TRANSPARENT_LINE_CAP, "the mode read");
    promised(source.number == ZEVKHOLTAI_NUMBER_NO_REGISTER && source.value == 0, "no reading of the copy source");
    promised(zevkholtai_read_back(SIZE, SIZE - SIDE, SIDE) == ZEVKHOLTAI_NUMBER_ACCEPTED, "the last row read back");
    promised(zevkholtai_read_back(SIZE, SIZE - SIDE, SIDE + 1) == ZEVKHOLTAI_NUMBER_OUTSIDE, "no pixel past the last");
    promised(zevkholtai_compose(ZEVKHOLTAI_OPERATION_XOR, ZEVKHOLTAI_OPERATION_XOR) == ZEVKHOLTAI_OPERATION_NOOP, "a draw twice by exclusive-or");
    printf("reads: mode %04Xh; number %u for the copy source, %u for pixels past the last\n", (unsigned)mode.value,
           (unsigned)source.number, (unsigned)ZEVKHOLTAI_NUMBER_OUTSIDE);
}

/* A saved card is 164 bytes, which may come from a file. Restored with a mode that is not listed, it refuses and changes nothing. */
static void restored(void) {
    uint8_t file[sizeof card];
    struct zevkholtai_card kept = card;
    memcpy(file, &card, sizeof card);
    memset(&card, 0xFF, sizeof card);
    memcpy(filled, vram, SIZE);
    struct zevkholtai_answer bad = zevkholtai_write(&card, ZEVKHOLTAI_SPACE_FRAME, 15, 0, 0, vram, SIZE);
    promised(bad.number == ZEVKHOLTAI_NUMBER_BAD_MODE && differing(vram, filled) == 0, "a refusal on a card of other bytes");
    memcpy(&card, file, sizeof card);
    promised(memcmp(&card, &kept, sizeof card) == 0, "a card restored");
    printf("a card saved as %u bytes and restored; on other bytes number %u\n", (unsigned)sizeof file, (unsigned)bad.number);
}

int main(void) {
    for (int i = 0; i < SIDE; i++) vram[i * SIDE + i] = HELD;
    memcpy(marks, vram, SIZE);

    zevkholtai_reset(&card, HELD);
    set(ZEVKHOLTAI_REGISTER_FOREGROUND, 0xFFFFFFFF / 255 * (HELD | GREY));
    set(ZEVKHOLTAI_REGISTER_FILL_MASK, 0xFFFFFFFF);
    set(ZEVKHOLTAI_REGISTER_MODE, ZEVKHOLTAI_MODE_TRANSPARENT_FILL);
    fill(SIZE);
    fill(0); /* a screen sender has nothing to send */
    memcpy(filled, vram, SIZE);

    /* A dashed bar, then two uprights at its ends. The one-shot mask cuts the bar, which uses it up. */
    set(ZEVKHOLTAI_REGISTER_PIXEL_MASK_ONCE, 0x07FFFFE0);
    uint32_t used = zevkholtai_start(trace, sizeof trace, SIZE).length;
    used = record(used, ZEVKHOLTAI_SPACE_REGISTER, ZEVKHOLTAI_REGISTER_RASTER_OPERATION, ZEVKHOLTAI_OPERATION_XOR);
    used = record(used, ZEVKHOLTAI_SPACE_REGISTER, ZEVKHOLTAI_REGISTER_BACKGROUND, 0x20202020);
    used = record(used, ZEVKHOLTAI_SPACE_REGISTER, ZEVKHOLTAI_REGISTER_MODE, ZEVKHOLTAI_MODE_OPAQUE_STIPPLE);
    used = record(used, ZEVKHOLTAI_SPACE_FRAME, 32 * SIDE + 16, 0xF0F0F0F0);
    used = record(used, ZEVKHOLTAI_SPACE_REGISTER, ZEVKHOLTAI_REGISTER_MODE, ZEVKHOLTAI_MODE_TRANSPARENT_STIPPLE);
    for (int y = 24; y < 41; y++) used = record(used, ZEVKHOLTAI_SPACE_FRAME, y * SIDE + 16, 0x08000010);
    struct zevkholtai_checked t = zevkholtai_check(trace, used);
    promised(t.number == 0 && t.length == SIZE, "a trace for this VRAM");
    struct zevkholtai_card saved = card;
    for (int turn = 0; turn < 2; turn++) {
        card = saved; /* or the second bar would have no mask, and ten pixels of it would stay */
        struct zevkholtai_ran r = zevkholtai_run(&card, trace + 16, used - 16, vram, SIZE, 65536);
        promised(r.number == 0 && r.entries == 22 && r.pixels == 56 && r.changed == 56 && r.rest == used - 16, "a whole run");
        promised(card.mask.marked == 0 && card.mask.bits == 0xFFFFFFFF, "a one-shot mask, used up");
        int n = differing(vram, filled);
        promised(n == (turn == 0 ? 56 : 0), "a caliper");
        printf("caliper %s: %u pixels changed, %d differ from the fill\n", turn == 0 ? "drawn" : "taken off", (unsigned)r.changed, n);
    }

    set(ZEVKHOLTAI_REGISTER_RASTER_OPERATION, ZEVKHOLTAI_OPERATION_COPY);
    set(ZEVKHOLTAI_REGISTER_FOREGROUND, 0x20202020);
    uint32_t drawn = line(2, 40, 56, 30);
    promised(drawn == 57 && differing(vram, filled) == 57, "a line of 57 pixels");
    promised((vram[40 * SIDE + 2] & 0x7F) == 0x20 && (vram[10 * SIDE + 58] & 0x7F) == 0x20, "both ends of the line");
    printf("line of 57 pixels: one line of 9 and three continues\n");
    memcpy(filled, vram, SIZE);

    struct zevkholtai_card before = card;
    struct zevkholtai_answer a = zevkholtai_write(&card, ZEVKHOLTAI_SPACE_FRAME, 15, 62, 1, vram, SIZE);
    promised(a.number == 7 && a.count == 0 && a.changed == 0, "the number of an address off its boundary");
    promised(memcmp(&card, &before, sizeof card) == 0 && differing(vram, filled) == 0, "a refusal that changes nothing");
    printf("off its boundary: number %u, nothing changed\n", (unsigned)a.number);

    console_reads();
    restored();
    return 0;
}
