/* The drawing engine of the DECchip 21030 (TGA card, 8 bits per pixel), for hosts in C and C++. Link libzevkholtai.a.
 *
 * The host keeps the card and its video memory (VRAM) and lends them to each call, but a register read takes the card by
 * value, and a trace that arrives in chunks takes the card and its reader by value and gives them back. The library keeps
 * nothing, allocates nothing and makes no system call. The caller sees to this: a pointer is valid for the length beside
 * it, and not null also where that is 0; the places lent to one call do not overlap. All else is promised for every input:
 * every pattern of bytes is a card, and a reader.
 *
 * Every answer has a number, the lowest that applies, but 10 comes before all others; for a trace that arrives in chunks see
 * zevkholtai_chunk:
 *
 *    0  accepted
 *    1  the VRAM length is 0, no multiple of 64, or over 2,097,152
 *    2  space is not 0 (frame) or 1 (register), or lanes exceed 15
 *    3  lanes are not 15, on a register write or in any mode but simple
 *    4  no such register
 *    5  a mode that is not listed, written or in the card handed in; a continue outside the line modes
 *    6  a raster operation written with any of bits 11:8 set, or a pixel shift with any of bits 3:0; a card whose operation
 *       is over 15
 *    7  an address off its boundary
 *    8  a pixel of the span, masked or not, lies outside VRAM; of a line or a continue any place that it visits, drawn or not
 *    9  a 64-byte destination write with no 64-byte source loaded
 *   10  trace bytes malformed
 *   11  no room for a trace entry or header
 *   12  a line's or a continue's error lies outside signed 16 bits, at its start or after any of its steps
 *   13  a continue before any accepted line
 *
 * Made twice, a list of writes leaves every picture as it was, and gives the same answers both times, the pixels changed
 * too, on two conditions. Every write that draws does so under raster operation 5, 6, 9 or 10 and obeys it (is no frame
 * write in a block mode), and none reads pixels into the copy buffer. Both times start from the same card: save it before
 * the first and put it back before the second, so that, say, a one-shot pixel mask is set again, and a continue starts at
 * the same place. See examples/host.c.
 *
 * To draw a line from one pixel to another, let `major` be the larger and `minor` the smaller of the two distances, in columns
 * and rows, and s and t the steps of an address along them (1 or -1 for a column, the screen's width or its negative for a
 * row). Set Bresenham 1, 2 and 3 (0040h, 0044h, 0048h), each increment as 16 bits of two's complement, in uint32_t, to
 *
 *    s << 16 | 2 * minor,  (s + t) << 16 | 2 * (major - minor)  and  (2 * minor - major) << 15 | length % 16
 *
 * and write, in mode 8002h (opaque) or 8006h (transparent), at the address of the first pixel less its bits 1:0, those bits
 * << 16 | FFFFh. `length` is major + 1 pixels: this draws length % 16 of them, 16 where that is 0, and each continue that
 * follows (a write of FFFFh at 004Ch) 16 more, so that no place past the line's end is visited. A mask other than FFFFh draws
 * pixel i of the write by its bit i. Modes 0002h and 0006h leave the last pixel of each write out. Distances may be up to
 * 16,383. See examples/host.c.
 */
#ifndef ZEVKHOLTAI_H
#define ZEVKHOLTAI_H

#include <stddef.h>
#include <stdint.h>

/* Rises with every change of a struct, of a name below or of what a call promises. */
#define ZEVKHOLTAI_VERSION 1

/* Where a write goes. */
enum zevkholtai_space {
    ZEVKHOLTAI_SPACE_FRAME = 0,
    ZEVKHOLTAI_SPACE_REGISTER = 1
};

/* The offsets of registers: the address of a write in the register space, and of a read. */
enum zevkholtai_register {
    ZEVKHOLTAI_REGISTER_FOREGROUND = 0x0020,
    ZEVKHOLTAI_REGISTER_BACKGROUND = 0x0024,
    ZEVKHOLTAI_REGISTER_PLANE_MASK = 0x0028,
    ZEVKHOLTAI_REGISTER_PIXEL_MASK_ONCE = 0x002C,
    ZEVKHOLTAI_REGISTER_MODE = 0x0030,
    ZEVKHOLTAI_REGISTER_RASTER_OPERATION = 0x0034,
    ZEVKHOLTAI_REGISTER_PIXEL_SHIFT = 0x0038,
    ZEVKHOLTAI_REGISTER_BRESENHAM_1 = 0x0040,
    ZEVKHOLTAI_REGISTER_BRESENHAM_2 = 0x0044,
    ZEVKHOLTAI_REGISTER_BRESENHAM_3 = 0x0048,
    ZEVKHOLTAI_REGISTER_CONTINUE = 0x004C,
    ZEVKHOLTAI_REGISTER_PIXEL_MASK = 0x005C,
    ZEVKHOLTAI_REGISTER_FILL_MASK = 0x0080,
    ZEVKHOLTAI_REGISTER_BLOCK_COLOUR_0 = 0x0140,
    ZEVKHOLTAI_REGISTER_BLOCK_COLOUR_1 = 0x0144,
    ZEVKHOLTAI_REGISTER_BLOCK_COLOUR_2 = 0x0148,
    ZEVKHOLTAI_REGISTER_BLOCK_COLOUR_3 = 0x014C,
    ZEVKHOLTAI_REGISTER_BLOCK_COLOUR_4 = 0x0150,
    ZEVKHOLTAI_REGISTER_BLOCK_COLOUR_5 = 0x0154,
    ZEVKHOLTAI_REGISTER_BLOCK_COLOUR_6 = 0x0158,
    ZEVKHOLTAI_REGISTER_BLOCK_COLOUR_7 = 0x015C,
    ZEVKHOLTAI_REGISTER_COPY_SOURCE = 0x0160,
    ZEVKHOLTAI_REGISTER_COPY_DESTINATION = 0x0164
};

/* The values of the mode register. With the cap bit a line draws its last pixel too. */
enum zevkholtai_mode {
    ZEVKHOLTAI_MODE_SIMPLE = 0x00,
    ZEVKHOLTAI_MODE_OPAQUE_STIPPLE = 0x01,
    ZEVKHOLTAI_MODE_OPAQUE_LINE = 0x02,
    ZEVKHOLTAI_MODE_TRANSPARENT_STIPPLE = 0x05,
    ZEVKHOLTAI_MODE_TRANSPARENT_LINE = 0x06,
    ZEVKHOLTAI_MODE_COPY = 0x07,
    ZEVKHOLTAI_MODE_BLOCK_STIPPLE = 0x0D,
    ZEVKHOLTAI_MODE_OPAQUE_FILL = 0x21,
    ZEVKHOLTAI_MODE_BLOCK_FILL = 0x2D,
    ZEVKHOLTAI_MODE_TRANSPARENT_FILL = 0x45,
    ZEVKHOLTAI_MODE_OPAQUE_LINE_CAP = 0x8002,
    ZEVKHOLTAI_MODE_TRANSPARENT_LINE_CAP = 0x8006
};

/* The raster operations, as the X Window System names them. */
enum zevkholtai_operation {
    ZEVKHOLTAI_OPERATION_CLEAR = 0,
    ZEVKHOLTAI_OPERATION_AND = 1,
    ZEVKHOLTAI_OPERATION_AND_REVERSE = 2,
    ZEVKHOLTAI_OPERATION_COPY = 3,
    ZEVKHOLTAI_OPERATION_AND_INVERTED = 4,
    ZEVKHOLTAI_OPERATION_NOOP = 5,
    ZEVKHOLTAI_OPERATION_XOR = 6,
    ZEVKHOLTAI_OPERATION_OR = 7,
    ZEVKHOLTAI_OPERATION_NOR = 8,
    ZEVKHOLTAI_OPERATION_EQUIV = 9,
    ZEVKHOLTAI_OPERATION_INVERT = 10,
    ZEVKHOLTAI_OPERATION_OR_REVERSE = 11,
    ZEVKHOLTAI_OPERATION_COPY_INVERTED = 12,
    ZEVKHOLTAI_OPERATION_OR_INVERTED = 13,
    ZEVKHOLTAI_OPERATION_NAND = 14,
    ZEVKHOLTAI_OPERATION_SET = 15
};

/* The numbers answered: see above. */
enum zevkholtai_number {
    ZEVKHOLTAI_NUMBER_ACCEPTED = 0,
    ZEVKHOLTAI_NUMBER_BAD_LENGTH = 1,
    ZEVKHOLTAI_NUMBER_BAD_SPACE = 2,
    ZEVKHOLTAI_NUMBER_BAD_LANES = 3,
    ZEVKHOLTAI_NUMBER_NO_REGISTER = 4,
    ZEVKHOLTAI_NUMBER_BAD_MODE = 5,
    ZEVKHOLTAI_NUMBER_BAD_OPERATION = 6,
    ZEVKHOLTAI_NUMBER_OFF_BOUNDARY = 7,
    ZEVKHOLTAI_NUMBER_OUTSIDE = 8,
    ZEVKHOLTAI_NUMBER_NOT_LOADED = 9,
    ZEVKHOLTAI_NUMBER_MALFORMED = 10,
    ZEVKHOLTAI_NUMBER_NO_ROOM = 11,
    ZEVKHOLTAI_NUMBER_BAD_LINE_ERROR = 12,
    ZEVKHOLTAI_NUMBER_NO_LINE = 13
};

#ifdef __cplusplus
extern "C" {
#endif

struct zevkholtai_registers {
    uint32_t foreground;
    uint32_t background;
    uint32_t plane;    /* plane mask */
    uint32_t mode;
    uint32_t raster;   /* raster operation, bits 3:0 */
    uint32_t bresenham1;
    uint32_t bresenham2;
    uint32_t bresenham3;
    uint32_t fill;     /* fill mask: the data register */
    uint32_t block[8]; /* block colours */
};

/* A mark, here and below, is set where it is not 0; the library stores 0 or 1. */
struct zevkholtai_mask {
    uint32_t bits;   /* pixel mask */
    uint32_t marked; /* it is one-shot */
};

struct zevkholtai_copier {
    uint8_t buffer[64];
    uint32_t loaded;  /* the buffer holds a 64-byte source */
    uint32_t writing; /* the next copy write draws its destination */
};

/* Where the last accepted line or continue stopped, after its last step: a continue goes on from there. */
struct zevkholtai_line {
    int32_t place; /* an address, which can lie outside VRAM, also below 0 */
    int32_t error;
    uint32_t kept; /* a line was accepted */
};

/* The whole state: 164 bytes, no padding.
 *
 * A host saves a card by copying these bytes and restores it by copying them back: they hold no pointer, and all words are
 * in the processor's byte order, at the offsets that the checks at the end of this file state for this ZEVKHOLTAI_VERSION.
 * The picture is saved beside it. A card restored with any bytes is safe: every call answers and ends, on it as on any
 * other, and the planes in bits 7:0 of `held` are held. Where its mode is not listed or its raster operation is over 15,
 * every write that numbers 1 to 4 let pass answers 5 or 6, until the host resets or restores it; such a card can be read. */
struct zevkholtai_card {
    struct zevkholtai_registers registers;
    struct zevkholtai_mask mask;
    struct zevkholtai_copier copier;
    struct zevkholtai_line line;
    uint32_t held; /* held planes, bits 7:0, which no write can change */
};

struct zevkholtai_answer {
    uint32_t number;
    uint32_t count;   /* pixels enabled, whether or not a bit changed; 0 where refused */
    uint32_t changed; /* pixels whose byte is another now: at most count. Where it is 0, every byte of VRAM stayed; the
                       * converse holds but for a line or continue that visits a pixel twice, whose visits count one by one */
};

struct zevkholtai_reading {
    uint32_t number;
    uint32_t value; /* 0 where refused */
};

struct zevkholtai_checked {
    uint32_t number;
    uint32_t length; /* in bytes; 0 where refused */
};

struct zevkholtai_ran {
    uint32_t number;
    uint32_t entries; /* entries applied: at most the budget, the entries of the part, and 65,536 */
    uint32_t pixels;  /* total count of these: at most 134,217,728 */
    uint32_t changed; /* total changed by these: at most pixels; a pixel that two of them change counts twice */
    uint32_t rest;    /* the unread part begins at this byte of the part: 12 * entries */
};

/* What waits between two chunks of a trace: 44 bytes, no padding. After any calls from a new reader, applied is at most
 * announced and 65,536, pixels at most 134,217,728, and changed at most pixels. */
struct zevkholtai_reader {
    uint32_t number;     /* what the last call answered; it sticks where it is not 0 */
    uint32_t opened;     /* a mark: the header is read */
    uint32_t announced;  /* entries that the header announces */
    uint32_t applied;    /* entries applied */
    uint32_t pixels;     /* total count of these */
    uint32_t changed;    /* total changed by these */
    uint32_t filled;     /* bytes that wait, of a header or an entry that is not whole yet */
    uint8_t waiting[16]; /* these, in front */
};

/* What a chunk leaves, for the next one. */
struct zevkholtai_fed {
    struct zevkholtai_reader reader;
    struct zevkholtai_card card;
};

/* Every register and mark at reset, whatever the card was before, with the planes that are 1 in `held` held. */
void zevkholtai_reset(struct zevkholtai_card *card, uint8_t held);

/* One write, as the bus delivers it. Accepted, it draws into VRAM and leaves the next card. Refused, it leaves the card and
 * every byte of VRAM. A byte outside the write's span or visits, a masked bit and a held plane keep their state. */
struct zevkholtai_answer zevkholtai_write(struct zevkholtai_card *card, uint8_t space, uint8_t lanes, uint32_t address,
                                          uint32_t data, uint8_t *vram, size_t length);

/* A console's register read: 0 with the value, or 4 with the value 0 where no register has this offset or it can only be
 * written (004Ch, 0160h, 0164h). Of a value the bits that the register keeps are shown: of the raster operation bits 3:0, of
 * Bresenham 3 all but bits 14:4. The card comes by value, so a read cannot change it. */
struct zevkholtai_reading zevkholtai_read(struct zevkholtai_card card, uint32_t offset);

/* A console's read-back of `n` pixels from `address`, out of a VRAM of `length` bytes: 0 where the host may hand it the bytes
 * vram[address] to vram[address + n - 1]; 1; or 8 where address + n, as whole numbers, exceeds the length. With n = 0 and
 * address equal to the length it is 0. */
uint32_t zevkholtai_read_back(size_t length, uint32_t address, uint32_t n);

/* The raster operation that does at once what a and then b do to every pixel, for each source. Of a and b bits 3:0 count. */
uint8_t zevkholtai_compose(uint8_t a, uint8_t b);

/* Starts a trace for a VRAM of `length` bytes: a header of no writes in the buffer's first 16 bytes. Answers the trace's
 * length; or 1, then 11 where the buffer has under 16 bytes, and the buffer keeps every byte. */
struct zevkholtai_checked zevkholtai_start(uint8_t *buffer, size_t size, uint32_t length);

/* Appends a write to the trace in the buffer's first `used` bytes; bytes past its 12 stay. Answers the trace's new length;
 * or 10 where those bytes are no trace or the buffer has not so many, 2, or 11 where 12 more bytes don't fit or the trace has
 * 65,536 entries, and the buffer keeps every byte. The longest trace has 786,448 bytes.
 *
 * It looks at every entry that the trace has, so recording a long one costs the square of its length: see
 * zevkholtai_extend. */
struct zevkholtai_checked zevkholtai_append(uint8_t *buffer, size_t size, size_t used, uint8_t space, uint8_t lanes,
                                            uint32_t address, uint32_t data);

/* Appends, for a host that knows the first `used` bytes for a trace: it started that trace in this buffer, or checked it
 * once, and only this call and zevkholtai_append changed it since. Number, length and every byte are those of
 * zevkholtai_append, and it takes no longer where the trace is long, since it looks at the header alone. Of bytes that are
 * no trace the same holds, but in one case: their header is good and its total is `used`, and a pad byte of an entry is not
 * zero. zevkholtai_append answers 10 then; this one does not see it, and answers 2, 11 or 0 as for a trace. */
struct zevkholtai_checked zevkholtai_extend(uint8_t *buffer, size_t size, size_t used, uint8_t space, uint8_t lanes,
                                            uint32_t address, uint32_t data);

/* Whether the bytes are a trace: 0 or 10. The length answered is that of the VRAM it is for. Where the number is 0, its
 * entries are the bytes from 16 on. */
struct zevkholtai_checked zevkholtai_check(const uint8_t *bytes, size_t size);

/* Makes the writes of a part, the entries of a trace, until the budget or the part ends or one is refused. Answers 10 where
 * the part is not whole entries, has a nonzero pad byte or over 65,536 entries; then 1; then the number of the refused write,
 * with which the unread part begins. What was drawn before it stays. To go on, hand in the unread part. */
struct zevkholtai_ran zevkholtai_run(struct zevkholtai_card *card, const uint8_t *part, size_t size, uint8_t *vram,
                                     size_t length, uint32_t budget);

/* A trace that arrives over a serial line, in chunks of any length, is read by a new reader for each trace; the host stores
 * what each call gives back, and hands it to the next. The bytes may be cut anywhere: in one chunk or many, the last number,
 * card, picture and totals are the same. For bytes that zevkholtai_check accepts they are those of one whole run. */
struct zevkholtai_reader zevkholtai_new_reader(void);

/* Reads a chunk, with the card and VRAM as the last one left them, and draws each entry once it is whole. `reader.number` is
 * the answer:
 *
 *    1  the VRAM's length, for an empty chunk too; no byte of the chunk is read
 *   10  a bad header, at its sixteenth byte; a nonzero pad byte, at once; a byte past the header's total
 *
 * or, 2 to 9, 12 and 13, the number of a refused entry. What was drawn before stays, and that number sticks: later chunks and end calls
 * answer it, and change nothing.
 *
 * A reader whose number is 0 answers 10, before 1, and nothing else changes, where 16 bytes or more wait, 12 or more once
 * the header is read, more entries are applied than announced, over 65,536 are announced, there are more than 2,048 pixels
 * an entry, or more are changed than counted: no bytes can leave it so. */
struct zevkholtai_fed zevkholtai_chunk(struct zevkholtai_reader reader, struct zevkholtai_card card, const uint8_t *bytes,
                                       size_t size, uint8_t *vram, size_t length);

/* Says that no more bytes come. Answers 10 where bytes are owed, or for such a reader; else 0, and changes nothing. A number
 * that sticks comes first. */
struct zevkholtai_reader zevkholtai_end(struct zevkholtai_reader reader);

#ifdef __cplusplus
}
#define ZEVKHOLTAI_HOLDS(fact) static_assert(fact, #fact)
#else
#define ZEVKHOLTAI_HOLDS(fact) __extension__ _Static_assert(fact, #fact)
#endif

#define ZEVKHOLTAI_AT(field, offset) ZEVKHOLTAI_HOLDS(offsetof(struct zevkholtai_card, field) == (offset))
#define ZEVKHOLTAI_READS(field, offset) ZEVKHOLTAI_HOLDS(offsetof(struct zevkholtai_reader, field) == (offset))
ZEVKHOLTAI_HOLDS(sizeof(struct zevkholtai_registers) == 68);
ZEVKHOLTAI_HOLDS(sizeof(struct zevkholtai_mask) == 8);
ZEVKHOLTAI_HOLDS(sizeof(struct zevkholtai_copier) == 72);
ZEVKHOLTAI_HOLDS(sizeof(struct zevkholtai_line) == 12);
ZEVKHOLTAI_HOLDS(sizeof(struct zevkholtai_card) == 164);
ZEVKHOLTAI_HOLDS(sizeof(struct zevkholtai_answer) == 12);
ZEVKHOLTAI_HOLDS(sizeof(struct zevkholtai_reading) == 8);
ZEVKHOLTAI_HOLDS(sizeof(struct zevkholtai_checked) == 8);
ZEVKHOLTAI_HOLDS(sizeof(struct zevkholtai_ran) == 20);
ZEVKHOLTAI_HOLDS(sizeof(struct zevkholtai_reader) == 44);
ZEVKHOLTAI_HOLDS(sizeof(struct zevkholtai_fed) == 208);
ZEVKHOLTAI_HOLDS(offsetof(struct zevkholtai_fed, card) == 44);
ZEVKHOLTAI_AT(registers.foreground, 0);
ZEVKHOLTAI_AT(registers.background, 4);
ZEVKHOLTAI_AT(registers.plane, 8);
ZEVKHOLTAI_AT(registers.mode, 12);
ZEVKHOLTAI_AT(registers.raster, 16);
ZEVKHOLTAI_AT(registers.bresenham1, 20);
ZEVKHOLTAI_AT(registers.bresenham2, 24);
ZEVKHOLTAI_AT(registers.bresenham3, 28);
ZEVKHOLTAI_AT(registers.fill, 32);
ZEVKHOLTAI_AT(registers.block, 36);
ZEVKHOLTAI_AT(mask.bits, 68);
ZEVKHOLTAI_AT(mask.marked, 72);
ZEVKHOLTAI_AT(copier.buffer, 76);
ZEVKHOLTAI_AT(copier.loaded, 140);
ZEVKHOLTAI_AT(copier.writing, 144);
ZEVKHOLTAI_AT(line.place, 148);
ZEVKHOLTAI_AT(line.error, 152);
ZEVKHOLTAI_AT(line.kept, 156);
ZEVKHOLTAI_AT(held, 160);
ZEVKHOLTAI_READS(number, 0);
ZEVKHOLTAI_READS(opened, 4);
ZEVKHOLTAI_READS(announced, 8);
ZEVKHOLTAI_READS(applied, 12);
ZEVKHOLTAI_READS(pixels, 16);
ZEVKHOLTAI_READS(changed, 20);
ZEVKHOLTAI_READS(filled, 24);
ZEVKHOLTAI_READS(waiting, 28);
#undef ZEVKHOLTAI_READS
#undef ZEVKHOLTAI_AT
#undef ZEVKHOLTAI_HOLDS

#endif
