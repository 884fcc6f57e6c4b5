/* viewer WIDTH HEIGHT STRIP [PREFIX]: print the tiles of the strip in the file STRIP, in a frame of WIDTH by HEIGHT. With a PREFIX, decode
   each tile, write its green plane as the picture PREFIX.K.pgm, and print how many bits its records took.

   Status 0: all good; 1: a file that can't be read or written, or a refusal; 2: bad usage. */
#include <ctype.h>
#include <errno.h>
#include <stdio.h>
#include <stdlib.h>
#include <string.h>
#include <sys/stat.h>

#include "arw6.h"

struct bytes {
    uint8_t *at;
    size_t length;
};

/* Room for at least one byte more. 0 where there is none. */
static int grow(struct bytes *bytes, size_t *room)
{
    size_t more = *room ? 2 * *room : 65536;
    uint8_t *at = more > *room ? realloc(bytes->at, more) : NULL;
    if (!at)
        return 0;
    bytes->at = at;
    *room = more;
    return 1;
}

/* The whole of a file. 0 where it can't be read, which is told. */
static int read_file(const char *name, struct bytes *bytes)
{
    struct stat kind;
    const char *wrong = NULL;
    size_t room = 0;
    FILE *file = fopen(name, "rb");
    if (!file) {
        perror(name);
        return 0;
    }
    if (fstat(fileno(file), &kind) == 0 && S_ISDIR(kind.st_mode))
        wrong = "is a folder";
    while (!wrong && !feof(file)) {
        if (bytes->length == room && !grow(bytes, &room)) {
            wrong = "not enough memory";
            break;
        }
        bytes->length += fread(bytes->at + bytes->length, 1, room - bytes->length, file);
        if (ferror(file))
            wrong = strerror(errno);
    }
    fclose(file);
    if (wrong)
        fprintf(stderr, "%s: %s\n", name, wrong);
    return !wrong;
}

/* A plain decimal number; 0 where the text is none. */
static int number(const char *text, size_t *value)
{
    char *end;
    unsigned long long read;
    if (!isdigit((unsigned char)text[0]))
        return 0;
    errno = 0;
    read = strtoull(text, &end, 10);
    if (*end || errno || read > SIZE_MAX)
        return 0;
    *value = read;
    return 1;
}

/* A number of the plane as a code of 12 bits, from 0 to 4095. */
static int code(int32_t number)
{
    return number < -2048 ? 0 : number > 2047 ? 4095 : number + 2048;
}

/* The green that a sensor row has at a column. Row y of the plane holds two: those of its odd columns stand in sensor row 2y, those of its
   even columns in sensor row 2y + 1. A place in between is the mean of its neighbours to the left and to the right, at an edge the one. */
static int green_at(const int32_t *row, size_t width, int even, size_t x)
{
    int here = (x % 2 == 0) == even;
    if (here)
        return code(row[x]);
    if (x == 0)
        return code(row[1]);
    if (x + 1 == width)
        return code(row[x - 1]);
    return (code(row[x - 1]) + code(row[x + 1])) / 2;
}

/* Writes the picture, of 2 `rows` sensor rows, 16 bits to a place. 0 where that fails, which is told. */
static int write_picture(const char *name, const int32_t *green, size_t width, size_t rows)
{
    int failed;
    FILE *file = fopen(name, "wb");
    if (!file) {
        perror(name);
        return 0;
    }
    fprintf(file, "P5\n%zu %zu\n4095\n", width, 2 * rows);
    for (size_t y = 0; y < 2 * rows; y++)
        for (size_t x = 0; x < width; x++) {
            int value = green_at(green + y / 2 * width, width, y % 2 == 1, x);
            putc(value >> 8, file);
            putc(value & 255, file);
        }
    failed = ferror(file);
    if (fclose(file) || failed) {
        perror(name);
        return 0;
    }
    return 1;
}

/* The rows of the planes that belong to the coded height. */
static size_t coded_rows(struct arw6_decoded tile)
{
    return tile.rows < tile.height / 2 ? tile.rows : tile.height / 2;
}

static int32_t *lend(uint64_t length)
{
    return length > SIZE_MAX / sizeof(int32_t) ? NULL : malloc(length * sizeof(int32_t));
}

static int refused(size_t tile, uint64_t refusal)
{
    fprintf(stderr, "tile %zu: refusal %llu: %s\n", tile, (unsigned long long)refusal, arw6_refusal_words(refusal));
    return 0;
}

/* Whether a stream that was accepted has a record: one that is there has some number, for which a band of none is too short. */
static int is_there(const uint8_t *stream, size_t length, size_t packet, size_t record, int32_t *band)
{
    return arw6_record(stream, length, packet, record, band, 0).refusal == 4;
}

/* Prints the bits that decoding a tile took, and those that its records, read one by one into the band, took of their allowances. */
static void print_bits(const uint8_t *stream, size_t length, size_t tile, uint64_t decoded, int32_t *band, size_t band_len)
{
    uint64_t bits = 0, allowance = 0;
    size_t records = 0;
    for (size_t packet = 0; packet < 13; packet++)
        for (size_t record = 0; is_there(stream, length, packet, record, band); record++) {
            struct arw6_record got = arw6_record(stream, length, packet, record, band, band_len);
            bits += got.bits;
            allowance += got.allowance;
            records++;
        }
    printf("tile %zu: %llu bits; %zu records took %llu of %llu\n", tile, (unsigned long long)decoded, records, (unsigned long long)bits,
           (unsigned long long)allowance);
}

/* Decodes a tile, writes its picture and prints its bits. 0 where that fails, which is told. */
static int decode_tile(const uint8_t *stream, size_t length, size_t tile, const char *name)
{
    struct arw6_lengths need = arw6_lengths(stream, length);
    struct arw6_decoded got;
    int32_t *green, *red, *blue, *work;
    int done = 0;
    if (need.refusal)
        return refused(tile, need.refusal);
    green = lend(need.green);
    red = lend(need.red);
    blue = lend(need.blue);
    work = lend(need.work);
    if (green && red && blue && work) {
        got = arw6_decode_stream(stream, length, green, need.green, red, need.red, blue, need.blue, work, need.work);
        if (got.broken) /* spent records are ordinary */
            fprintf(stderr, "tile %zu: broken records: %llu; the picture is damaged there\n", tile, (unsigned long long)got.broken);
        done = got.refusal ? refused(tile, got.refusal) : write_picture(name, green, got.width, coded_rows(got));
        if (done) /* the work slice is longer than any record */
            print_bits(stream, length, tile, got.bits, work, need.work);
    } else {
        fprintf(stderr, "tile %zu: not enough memory\n", tile);
    }
    free(green);
    free(red);
    free(blue);
    free(work);
    return done;
}

/* Prints the tiles, and one past the last, which like field 6 gives 0. */
static void print_tiles(struct bytes strip, size_t width, size_t height, size_t count)
{
    static const char *const names[] = {"offset", "length", "x", "y", "width", "height"};
    printf("%zu tiles\n", count);
    for (size_t tile = 0; tile <= count; tile++) {
        printf("tile %zu:", tile);
        for (size_t field = ARW6_TILE_OFFSET; field <= ARW6_TILE_HEIGHT; field++)
            printf(" %s %zu", names[field], arw6_tile_field(strip.at, strip.length, width, height, tile, field));
        printf(", field 6: %zu\n", arw6_tile_field(strip.at, strip.length, width, height, tile, 6));
    }
}

/* Decodes all tiles to pictures named after the prefix; how many failed. */
static size_t decode_tiles(struct bytes strip, size_t width, size_t height, size_t count, const char *prefix)
{
    size_t failed = 0;
    char *name = malloc(strlen(prefix) + 32);
    if (!name) {
        fprintf(stderr, "not enough memory\n");
        return count;
    }
    for (size_t tile = 0; tile < count; tile++) {
        size_t offset = arw6_tile_field(strip.at, strip.length, width, height, tile, ARW6_TILE_OFFSET);
        size_t length = arw6_tile_field(strip.at, strip.length, width, height, tile, ARW6_TILE_LENGTH);
        sprintf(name, "%s.%zu.pgm", prefix, tile);
        failed += !decode_tile(strip.at + offset, length, tile, name);
    }
    free(name);
    return failed;
}

int main(int argc, char **argv)
{
    struct bytes strip = {NULL, 0};
    size_t width, height, count, failed = 0;
    if ((argc != 4 && argc != 5) || !number(argv[1], &width) || !number(argv[2], &height)) {
        fprintf(stderr, "usage: viewer WIDTH HEIGHT STRIP [PREFIX]\n");
        return 2;
    }
    if (!read_file(argv[3], &strip)) {
        free(strip.at);
        return 1;
    }
    count = arw6_tile_count(strip.at, strip.length, width, height);
    print_tiles(strip, width, height, count);
    if (count == 0)
        fprintf(stderr, "%s: refusal 1: %s\n", argv[3], arw6_refusal_words(1));
    else if (argc == 5)
        failed = decode_tiles(strip, width, height, count, argv[4]);
    free(strip.at);
    if (fflush(stdout) || ferror(stdout)) {
        perror("standard output");
        return 1;
    }
    return count == 0 || failed > 0;
}
