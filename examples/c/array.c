/* Writes rows of an array into a folder of chunks, as zarr-python does, and reads a window of the array: array FOLDER */
#define _POSIX_C_SOURCE 200809L
#include "zarrs_codecs.h"
#include <errno.h>
#include <stdio.h>
#include <stdlib.h>
#include <string.h>
#include <sys/stat.h>
#include <unistd.h>

/* Chunks of 2 rows and 3 columns; 9999 where nothing is stored. */
static const char *const HEADER =
    "{\"shape\":[2,3],\"data_type\":\"uint16\",\"fill_value\":\"0f27\",\"codecs\":["
    "{\"name\":\"bytes\",\"configuration\":{\"endian\":\"little\"}},\"crc32c\"]}";

enum { AXES = 2, SIZE = 2, ROOM = 64 };
static const uint64_t SHAPE[AXES] = {5, 7}, CHUNK[AXES] = {2, 3};

/* The chunks that a region touches: their keys, with a place for each, and four numbers an axis. */
typedef struct {
    char *keys;
    uint64_t *offsets, *numbers;
    size_t chunks;
} plan;

/* Ends the program with a refusal's name. */
static void accepted(uint32_t code)
{
    char name[ZARRS_NAME_SIZE];
    if (code == ZARRS_DONE)
        return;
    fprintf(stderr, "refused: %s\n", zarrs_name(code, name));
    exit(1);
}

static void done(int is_done, const char *what)
{
    if (is_done)
        return;
    perror(what);
    exit(1);
}

static plan make_plan(const uint64_t *region)
{
    plan made = {NULL, NULL, NULL, 0};
    zarrs_plan_sizes sizes = {0, 0, 0, 0};
    uint32_t code;
    while ((code = zarrs_array_plan(SHAPE, AXES, CHUNK, AXES, ZARRS_KEYS_DEFAULT, '/', region, 2 * AXES,
                                    (uint8_t *)made.keys, sizes.keys, made.offsets, sizes.offsets,
                                    made.numbers, sizes.numbers, &sizes)) == ZARRS_SHORT) {
        made.keys = malloc(sizes.keys + 1);
        made.offsets = malloc(sizes.offsets * sizeof *made.offsets);
        made.numbers = malloc((sizes.numbers + 1) * sizeof *made.numbers);
        done(made.keys && made.offsets && made.numbers, "plan");
    }
    accepted(code);
    made.chunks = sizes.chunks;
    return made;
}

static void let_go(plan *it)
{
    free(it->keys);
    free(it->offsets);
    free(it->numbers);
}

/* The key of a chunk as a path, with its folders made where it is written. */
static FILE *opened(const plan *it, size_t chunk, const char *mode)
{
    char path[ROOM];
    size_t len = (size_t)(it->offsets[chunk + 1] - it->offsets[chunk]);
    done(len < ROOM, "key");
    memcpy(path, it->keys + it->offsets[chunk], len);
    path[len] = '\0';
    for (char *at = strchr(path, '/'); at && *mode == 'w'; at = strchr(at + 1, '/')) {
        *at = '\0';
        done(!mkdir(path, 0777) || errno == EEXIST, path);
        *at = '/';
    }
    FILE *file = fopen(path, mode);
    done(file || (*mode == 'r' && errno == ENOENT), path);
    return file;
}

/* How many bytes the elements of a part have. */
static size_t bytes_of(const uint64_t *part) { return SIZE * (size_t)(part[2 * AXES] * part[2 * AXES + 1]); }

/* Writes a region's elements, chunk by chunk. */
static void write_region(zarrs_chain *chain, const uint64_t *region, const uint8_t *elements, size_t len)
{
    plan it = make_plan(region);
    for (size_t chunk = 0; chunk < it.chunks; chunk++) {
        const uint64_t *part = it.numbers + 4 * AXES * chunk;
        uint8_t own[ROOM], value[ROOM];
        size_t size;
        accepted(zarrs_part_take(SIZE, region + AXES, AXES, part, 4 * AXES, elements, len, own, bytes_of(part)));
        accepted(zarrs_chain_write(chain, false, NULL, 0, ZARRS_BOX, part + AXES, 2 * AXES, NULL, 0, NULL, 0,
                                   own, bytes_of(part), value, sizeof value, &size));
        FILE *file = opened(&it, chunk, "wb");
        done(fwrite(value, 1, size, file) == size && !fclose(file), "chunk");
    }
    let_go(&it);
}

/* Reads a region's elements, chunk by chunk. */
static void read_region(zarrs_chain *chain, const uint64_t *region, uint8_t *elements, size_t len)
{
    plan it = make_plan(region);
    for (size_t chunk = 0; chunk < it.chunks; chunk++) {
        const uint64_t *part = it.numbers + 4 * AXES * chunk;
        uint8_t own[ROOM], value[ROOM];
        zarrs_sizes sizes;
        FILE *file = opened(&it, chunk, "rb");
        size_t size = file ? fread(value, 1, sizeof value, file) : 0;
        printf("%.*s: %s, %d by %d\n", (int)(it.offsets[chunk + 1] - it.offsets[chunk]), it.keys + it.offsets[chunk],
               file ? "stored" : "not stored", (int)part[2 * AXES], (int)part[2 * AXES + 1]);
        accepted(zarrs_chain_read(chain, file != NULL, value, size, ZARRS_BOX, part + AXES, 2 * AXES, NULL, 0, NULL, 0,
                                  own, sizeof own, &sizes));
        accepted(zarrs_part_put(SIZE, region + AXES, AXES, part, 4 * AXES, own, sizes.bytes, elements, len));
        if (file)
            fclose(file);
    }
    let_go(&it);
}

int main(int count, char **words)
{
    const uint64_t rows[] = {0, 0, 4, 7};   /* its start; and its shape: all but the last row */
    const uint64_t window[] = {1, 2, 4, 4}; /* from row 1 and column 2 on, 4 by 4 */
    uint8_t elements[SIZE * 4 * 7], read[SIZE * 4 * 4];
    zarrs_chain chain = {0};
    if (count != 2)
        return 2;
    accepted(zarrs_chain_new((const uint8_t *)HEADER, strlen(HEADER), &chain));
    done(!mkdir(words[1], 0777) && !chdir(words[1]), words[1]);

    for (int i = 0; i < 4 * 7; i++) { /* 0 to 6, 10 to 16, and so on */
        elements[SIZE * i] = (uint8_t)(10 * (i / 7) + i % 7);
        elements[SIZE * i + 1] = 0;
    }
    write_region(&chain, rows, elements, sizeof elements);
    read_region(&chain, window, read, sizeof read);
    for (int i = 0; i < 4 * 4; i++)
        printf("%s%d%s", i % 4 ? " " : "", read[SIZE * i] + 256 * read[SIZE * i + 1], i % 4 == 3 ? "\n" : "");
    zarrs_chain_free(&chain);
    return 0;
}
