/* Reads a window of a value in a file, of which it fetches what the window needs: rounds FILE */
#include "zarrs_codecs.h"
#include <stdio.h>
#include <stdlib.h>
#include <string.h>

/* A shard of 64 rows and 64 columns, in inner chunks of 16 by 16. */
static const char *const HEADER =
    "{\"shape\":[64,64],\"data_type\":\"uint16\",\"fill_value\":\"0000\",\"codecs\":["
    "{\"name\":\"sharding_indexed\",\"configuration\":{\"chunk_shape\":[16,16],"
    "\"codecs\":[{\"name\":\"bytes\",\"configuration\":{\"endian\":\"little\"}}],"
    "\"index_codecs\":[{\"name\":\"bytes\",\"configuration\":{\"endian\":\"little\"}},\"crc32c\"]}}]}";

/* What was fetched of a value: ranges, two numbers each, in order and apart; and their bytes, joined. */
typedef struct {
    uint64_t *ranges;
    size_t numbers;
    uint8_t *bytes;
    size_t len;
} pieces;

static void *room(size_t bytes)
{
    void *found = malloc(bytes ? bytes : 1);
    if (!found) {
        fprintf(stderr, "no memory\n");
        exit(1);
    }
    return found;
}

/* Ends the program with a refusal's name. */
static void accepted(uint32_t code)
{
    char name[ZARRS_NAME_SIZE];
    if (code == ZARRS_DONE)
        return;
    fprintf(stderr, "refused: %s\n", zarrs_name(code, name));
    exit(1);
}

/* Appends a range's bytes, which stand in from or in the file; ranges that touch become one. */
static void append(pieces *to, uint64_t begin, uint64_t end, const uint8_t *from, FILE *file)
{
    size_t count = (size_t)(end - begin);
    if (from)
        memcpy(to->bytes + to->len, from, count);
    else if (fseek(file, (long)begin, SEEK_SET) || fread(to->bytes + to->len, 1, count, file) != count) {
        fprintf(stderr, "the file can't be read\n");
        exit(1);
    }
    to->len += count;
    if (to->numbers && to->ranges[to->numbers - 1] == begin) {
        to->ranges[to->numbers - 1] = end;
        return;
    }
    to->ranges[to->numbers++] = begin;
    to->ranges[to->numbers++] = end;
}

/* Fetches what is lacking, and puts it in order among what is there. */
static void fetch(pieces *have, const uint64_t *lacking, size_t numbers, FILE *file)
{
    pieces all = {room((have->numbers + numbers) * sizeof *lacking), 0, NULL, 0};
    size_t old = 0, at = 0, size = have->len;
    for (size_t i = 0; i < numbers; i += 2)
        size += (size_t)(lacking[i + 1] - lacking[i]);
    all.bytes = room(size);
    for (size_t i = 0; old < have->numbers || i < numbers;) {
        if (i == numbers || (old < have->numbers && have->ranges[old] < lacking[i])) {
            append(&all, have->ranges[old], have->ranges[old + 1], have->bytes + at, NULL);
            at += (size_t)(have->ranges[old + 1] - have->ranges[old]);
            old += 2;
        } else {
            append(&all, lacking[i], lacking[i + 1], NULL, file);
            i += 2;
        }
    }
    free(have->ranges);
    free(have->bytes);
    *have = all;
}

/* The ranges that a read lacks, and how many numbers they are. */
static uint64_t *lack(uint64_t len, const pieces *have, const uint64_t *box, size_t *numbers)
{
    size_t space = 64;
    for (;;) {
        uint64_t *lacking = room(space * sizeof *lacking);
        uint32_t code = zarrs_lacking((const uint8_t *)HEADER, strlen(HEADER), len, have->ranges, have->numbers,
                                      have->bytes, have->len, ZARRS_BOX, box, 4, lacking, space, numbers);
        if (code != ZARRS_SHORT) {
            accepted(code);
            return lacking;
        }
        free(lacking);
        space = *numbers;
    }
}

static void make(const char *path)
{
    static uint8_t elements[2 * 64 * 64], value[1 << 14];
    size_t len;
    FILE *file = fopen(path, "wb");
    for (size_t i = 0; i < sizeof elements; i += 2) {
        elements[i] = (uint8_t)(i / 2);
        elements[i + 1] = (uint8_t)(i / 512);
    }
    accepted(zarrs_encode((const uint8_t *)HEADER, strlen(HEADER), NULL, 0, NULL, 0, elements, sizeof elements,
                          value, sizeof value, &len));
    if (!file || fwrite(value, 1, len, file) != len || fclose(file)) {
        fprintf(stderr, "the file can't be written\n");
        exit(1);
    }
}

int main(int count, char **words)
{
    const uint64_t box[] = {14, 30, 3, 4}; /* its start: row 14, column 30; and its shape: 3 by 4 */
    uint8_t window[2 * 3 * 4];
    pieces have = {NULL, 0, NULL, 0};
    zarrs_sizes sizes;
    uint32_t code;
    if (count != 2)
        return 2;
    make(words[1]);

    FILE *file = fopen(words[1], "rb");
    if (!file || fseek(file, 0, SEEK_END))
        return 1;
    uint64_t len = (uint64_t)ftell(file);
    printf("the value has %d bytes\n", (int)len);
    while ((code = zarrs_read_pieces((const uint8_t *)HEADER, strlen(HEADER), len, have.ranges, have.numbers,
                                     have.bytes, have.len, ZARRS_BOX, box, 4, NULL, 0, NULL, 0,
                                     window, sizeof window, &sizes)) == ZARRS_STORAGE) {
        size_t numbers, before = have.len;
        uint64_t *lacking = lack(len, &have, box, &numbers);
        fetch(&have, lacking, numbers, file);
        free(lacking);
        printf("a round of %d range%s, %d bytes\n", (int)(numbers / 2), numbers == 2 ? "" : "s",
               (int)(have.len - before));
    }
    accepted(code);
    printf("window:");
    for (size_t i = 0; i < sizes.bytes; i += 2)
        printf(" %d", window[i] + 256 * window[i + 1]);
    printf("\n");
    fclose(file);
    free(have.ranges);
    free(have.bytes);
    return 0;
}
