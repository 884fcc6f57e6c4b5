/* Tiles of Sony's ARW6 strips. Link with target/staticlib/libarw6.a, which `tools/staticlib arw6` writes.
   It asks for no name but memcpy and memset.

   Every function takes any bytes, sizes and lengths, keeps no pointer after it returns, allocates nothing and ends. A pointer must be valid
   for its length, also where that is 0, and the slices of one call must not overlap.

   The functions keep no state and share none: they may be called from any number of threads at once, as long as no slice that one call
   writes is lent to another at the same time.

   The platform is x86-64 with the System V calling convention: size_t has 64 bits, and int32_t is two's complement. */
#ifndef ARW6_H
#define ARW6_H

#include <stddef.h>
#include <stdint.h>

#define ARW6_VERSION "0.5.0"
#define ARW6_VERSION_MAJOR 0
#define ARW6_VERSION_MINOR 5
#define ARW6_VERSION_PATCH 0

#ifdef __cplusplus
extern "C" {
#endif

/* The fields of a tile, in their order. */
enum {
    ARW6_TILE_OFFSET, /* where its stream starts in the strip */
    ARW6_TILE_LENGTH, /* of its stream, in bytes */
    ARW6_TILE_X,      /* its place in the frame */
    ARW6_TILE_Y,
    ARW6_TILE_WIDTH, /* its coded size */
    ARW6_TILE_HEIGHT
};

/* How many tiles the strip of strip_len bytes has in a frame of frame_width by frame_height; 0 where none is located, at most 16.
   Any bytes and any sizes are allowed; the strip is only read. */
size_t arw6_tile_count(const uint8_t *strip, size_t strip_len, size_t frame_width, size_t frame_height);

/* Field 0 to 5 of a tile; ordinals count from 0. A tile or a field that isn't there gives 0. */
size_t arw6_tile_field(const uint8_t *strip, size_t strip_len, size_t frame_width, size_t frame_height, size_t ordinal, size_t field);

/* What to lend for one tile. Refusal 2 or 3 comes with every other field 0. Here and below, w and H are the coded size, and n is H / 16
   rounded up. */
struct arw6_lengths {
    uint64_t refusal; /* 0: none of these two */
    uint64_t width;   /* the coded width w */
    uint64_t height;  /* the coded height H */
    uint64_t rows;    /* R, the rows of the planes: 8 n, or 8 n - 4 where H is no multiple of 16 */
    uint64_t green;   /* the numbers to lend: R by w */
    uint64_t red;     /* R by w / 2 */
    uint64_t blue;    /* R by w / 2 */
    uint64_t work;    /* 16 (n + 1) w */
};

/* The lengths for the stream of one tile, of stream_len bytes, which is only read. A refusal is also that of arw6_decode_stream, whatever
   is lent; without one, slices of these lengths or longer are never too short for it. */
struct arw6_lengths arw6_lengths(const uint8_t *stream, size_t stream_len);

/* What decoding one tile answers. A refusal from 2 to 24 comes with every other field 0.

   A record that stops early is 0 from there on, and goes by what it met first: a width above 19 makes it broken, the end of its allowance
   of bits makes it spent. Broken records are damage. Spent ones are ordinary: on an evenly lit lining the coder lets records run out on
   purpose.

   A record takes bits from its allowance, 128 for each 16 bytes that its length begins. A read that runs out takes what was left; the zeros
   that come of it take nothing. */
struct arw6_decoded {
    uint64_t refusal; /* 0: accepted */
    uint64_t width;   /* as in arw6_lengths */
    uint64_t height;
    uint64_t rows;
    uint64_t stopped; /* records that stopped early: broken + spent */
    uint64_t broken;  /* records that first met a width above 19: damage */
    uint64_t spent;   /* records that first ran past their allowance: ordinary */
    uint64_t bits;    /* that all records took from their allowances */
};

/* Decodes the stream of one tile, of stream_len bytes.

   Lent, and never kept: green, red and blue for the planes, row after row, and work, of the lengths that arw6_lengths says. Lengths are in
   numbers, and longer slices are fine. Refused, no element of any slice changes. Accepted, the planes stand at the start of their slices, the
   first 16 (n + 1) w numbers of work are 0, and elements past these lengths are as they were.

   In an ordinary frame, where no record has a selector above 4, every number of the planes lies strictly between -536,870,912 and
   536,870,912, so the sum and the difference of two fit int32_t. */
struct arw6_decoded arw6_decode_stream(const uint8_t *stream, size_t stream_len, int32_t *green, size_t green_len, int32_t *red, size_t red_len, int32_t *blue, size_t blue_len, int32_t *work, size_t work_len);

/* What one record is. A refusal, and a record that isn't there, come with every other field 0. */
struct arw6_record {
    uint64_t refusal;   /* 0: accepted */
    uint64_t bytes;     /* its byte length */
    uint64_t allowance; /* in bits: 128 for each 16 bytes begun */
    uint64_t bits;      /* that it took from its allowance, and never more */
    uint64_t broken;    /* 1 where it is broken, else 0 */
    uint64_t spent;     /* 1 where it is spent, else 0 */
};

/* One record of the stream of a tile, of stream_len bytes: record from 0, of packet 0 to 12, which are groups 0 to 3 of green (0 to 3), of red
   (4 to 7) and of blue (8 to 11), and group 4 (12).

   Lent, and never kept: band, for the record's coefficients as they are read, component after component, each of m rows: m is 1, 1, 2, 4, 8 and a
   row has w / 16, w / 16, w / 8, w / 4, w / 2 numbers in groups 0 to 4; groups 1 to 3 have three components, groups 0 and 4 one. No record has
   more than 4 w numbers. Accepted, they stand at the start of band. A record of byte length 0 is there, and its coefficients are 0.

   The refusals are those of arw6_decode_stream but 3 and 4, in its order; then 4 where band is shorter than the record. A packet or a record that
   isn't there is not refused: every field is 0. There and with a refusal, no number of band changes. */
struct arw6_record arw6_record(const uint8_t *stream, size_t stream_len, size_t packet, size_t record, int32_t *band, size_t band_len);

/* What writing one tile answers. A refusal (2, 3, 4, 20, 24, 25 or 26) comes with length 0. */
struct arw6_written {
    uint64_t refusal; /* 0: accepted */
    uint64_t length;  /* of the stream, in bytes */
};

/* Writes the stream of one tile, of the coded width w and the coded height H, from its planes: decoded, it gives exactly these planes, and no
   record of it stops early.

   Lent, and never kept: green, red and blue, of which the first R by w numbers, R by w / 2 and R by w / 2 are read, work, of 16 (n + 1) w numbers
   or more, and stream for the bytes. Accepted, the stream stands at the start of its slice. Refused, no byte of it changes. Bytes past the
   stream and numbers of work past 16 (n + 1) w are as they were in either case.

   The refusals, in the order of the checks, with w and H in place of a header: 2 where no valid header holds them (w is 0, no multiple of 16 or
   above 65,535; H is 0, odd or above 131,070); 3; 4 where green, red, blue or work is too short; 20; 24; 25 and 26, see their words; and 4 again,
   last of all, where stream is shorter than the stream. After 25, 26 and that last 4 the first 16 (n + 1) w numbers of work are 0, as they are
   after an accepted call; the other refusals leave work as it was.

   No stream is longer than (n + 1) (50 w + 480) + 768 bytes, so with that many lent the last 4 is never met.

   Few pictures are accepted as they come: at the top and at the bottom the format holds values of E alone, which only about half of all
   numbers are. Eight rows at the top and eight at the bottom that are constant along the row are enough for any picture of 12-bit codes
   between them, in tiles of up to 7,400 columns. */
struct arw6_written arw6_write_stream(const int32_t *green, size_t green_len, const int32_t *red, size_t red_len, const int32_t *blue, size_t blue_len, size_t width, size_t height, int32_t *work, size_t work_len, uint8_t *stream, size_t stream_len);

/* A refusal in words. */
static inline const char *arw6_refusal_words(uint64_t refusal)
{
    static const char *const words[] = {
        "accepted",
        "no tile located in the strip",
        "the stream's header is not valid",
        "the green plane would hold more than 134,217,728 numbers",
        "a lent slice is too short",
        "the directory runs past the end of the stream",
        "the directory lists more than 9 packets in a group",
        "a packet runs past the end of the stream",
        "the packets of a group are longer than the group",
        "a packet is missing",
        "a packet is shorter than 16 bytes",
        "a record header runs past the end of its packet",
        "a packet header's padding is not 0",
        "a packet header's tag is not 4, or the zeros beside it are not 0",
        "a packet's kind is neither 1 nor 3",
        "a packet has no records, or more than 30,000",
        "a packet header's marker is not 16, or the zeros after it are not 0",
        "a packet's size is not its length in the directory",
        "a record's bytes run past the end of its packet",
        "a packet of kind 3 stands in group 0 or 4",
        "the coded height is above 32,767",
        "a packet's rows do not fit the coded height",
        "a packet has more records than a stream of this length may have",
        "a packet of kind 1 stands in group 1, 2 or 3",
        "the coded height is under 16",
        "a coefficient is above 524,287 in magnitude, a step of band 0 leaves 16 bits, or an edge value is no value of E",
        "a record would be longer than 65,535 bytes, or a group longer than 268,435,440"
    };
    if (refusal >= sizeof words / sizeof words[0])
        return "a number that this header has no words for";
    return words[refusal];
}

#ifdef __cplusplus
}
#endif

#endif
