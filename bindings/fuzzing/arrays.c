/* Plans of arrays, and parts put into regions and taken out of them, beside what plain loops make. */
#include "fuzzing.h"
#include <stdio.h>
#include <string.h>

enum { MOST_AXES = 4, MOST_CHUNKS = 128, KEY = 32 };

typedef struct {
    size_t axes, chunk_axes, region_count; /* as they are given: they may differ */
    uint64_t shape[MOST_AXES + 1], chunk[MOST_AXES + 1], region[2 * MOST_AXES + 2];
    uint32_t encoding, separator;
} array;

/* Of a plan: the keys and the numbers, as they are due. */
typedef struct {
    size_t chunks, len, numbers;
    char keys[MOST_CHUNKS * KEY];
    uint64_t offsets[MOST_CHUNKS + 1], number[MOST_CHUNKS * 4 * MOST_AXES];
} due;

static uint64_t larger(uint64_t a, uint64_t b) { return a > b ? a : b; }
static uint64_t smaller(uint64_t a, uint64_t b) { return a < b ? a : b; }

static void make_array(fuzzer *f, array *a)
{
    a->axes = a->chunk_axes = some(f, MOST_AXES + 1);
    a->region_count = 2 * a->axes;
    a->encoding = (uint32_t)some(f, 2), a->separator = some(f, 2) ? '/' : '.';
    for (size_t i = 0; i < a->axes; i++) {
        a->shape[i] = some(f, a->axes < MOST_AXES ? 5 : 4);
        a->chunk[i] = 1 + some(f, 4);
        a->region[i] = some(f, a->shape[i] + 1);
        a->region[a->axes + i] = some(f, a->shape[i] - a->region[i] + 1);
    }
    if (some(f, 5))
        return;
    if (some(f, 6) == 0)
        a->encoding += 2;
    if (some(f, 6) == 0)
        a->separator += 7;
    if (some(f, 6) == 0)
        a->chunk_axes += 1, a->chunk[a->axes] = 1;
    if (a->chunk_axes && some(f, 6) == 0)
        a->chunk[some(f, a->chunk_axes)] = 0;
    if (some(f, 6) == 0)
        a->region_count += 1, a->region[a->region_count - 1] = some(f, 3);
    if (a->region_count && some(f, 3) == 0)
        a->region[some(f, a->region_count)] += some(f, 3) ? 1 + some(f, 9) : UINT64_MAX - some(f, 9);
}

/* The code that is due to a plan, but for a lack of memory and of room. */
static uint32_t code_due(const array *a)
{
    size_t axes = a->region_count / 2;
    const uint64_t *starts = a->region, *lengths = a->region + axes;
    if ((a->separator != '/' && a->separator != '.') || a->encoding > ZARRS_KEYS_V2)
        return ZARRS_ARGUMENT;
    for (size_t i = 0; i < a->chunk_axes; i++)
        if (a->chunk[i] == 0)
            return ZARRS_ZERO_SIZE;
    if (a->axes != a->chunk_axes)
        return ZARRS_INCOMPATIBLE_DIMENSIONALITY;
    if (a->region_count % 2)
        return ZARRS_ARGUMENT;
    for (size_t i = 0; i < axes; i++)
        if (starts[i] > UINT64_MAX - lengths[i])
            return ZARRS_OVERFLOW;
    if (axes != a->axes)
        return ZARRS_INCOMPATIBLE_DIMENSIONALITY;
    for (size_t i = 0; i < axes; i++)
        if (starts[i] + lengths[i] > a->shape[i])
            return ZARRS_OUT_OF_BOUNDS;
    return ZARRS_DONE;
}

static void append_key(due *to, const array *a, const uint64_t *chunk)
{
    char *key = to->keys + to->len;
    int at = a->encoding == ZARRS_KEYS_DEFAULT ? sprintf(key, "c") : a->axes ? 0 : sprintf(key, "0");
    for (size_t i = 0; i < a->axes; i++) {
        if (at)
            key[at++] = (char)a->separator;
        at += sprintf(key + at, "%llu", (unsigned long long)chunk[i]);
    }
    to->len += (size_t)at;
}

/* What is planned of a region that lies in its array. */
static void plan_due(const array *a, due *to)
{
    const uint64_t *starts = a->region, *lengths = a->region + a->axes;
    uint64_t counts[MOST_AXES], chunk[MOST_AXES];
    to->chunks = 1, to->len = to->numbers = 0, to->offsets[0] = 0;
    for (size_t i = 0; i < a->axes; i++) {
        counts[i] = lengths[i] ? (starts[i] + lengths[i] - 1) / a->chunk[i] - starts[i] / a->chunk[i] + 1 : 0;
        to->chunks *= counts[i];
    }
    for (size_t number = 0; number < to->chunks; number++) {
        size_t left = number;
        uint64_t *part = to->number + to->numbers;
        for (size_t i = a->axes; i-- > 0; left /= counts[i])
            chunk[i] = starts[i] / a->chunk[i] + left % counts[i];
        for (size_t i = 0; i < a->axes; i++) {
            uint64_t begin = chunk[i] * a->chunk[i], from = larger(starts[i], begin);
            part[i] = chunk[i];
            part[a->axes + i] = from - begin;
            part[2 * a->axes + i] = smaller(starts[i] + lengths[i], begin + a->chunk[i]) - from;
            part[3 * a->axes + i] = from - starts[i];
        }
        to->numbers += 4 * a->axes;
        append_key(to, a, chunk);
        to->offsets[number + 1] = to->len;
    }
}

static uint32_t plan(fuzzer *f, const header *h, const array *a, const due *wanted)
{
    const uint64_t *shape = put(f, f->offsets, a->shape, a->axes * 8), *chunk = put(f, f->numbers, a->chunk, a->chunk_axes * 8);
    const uint64_t *region = put(f, f->ranges, a->region, a->region_count * 8);
    size_t keys = some(f, 100), offsets = some(f, 20), numbers = some(f, 100);
    for (int turn = 0; turn < 8; turn++) {
        uint8_t *to_keys = blank(f, &f->to_bytes, keys);
        uint64_t *to_offsets = blank(f, &f->to_offsets, offsets * 8), *to_numbers = blank(f, &f->to_ranges, numbers * 8);
        zarrs_plan_sizes *needed = blank(f, &f->to_counts, sizeof *needed);
        before(f);
        uint32_t code = zarrs_array_plan(shape, a->axes, chunk, a->chunk_axes, a->encoding, a->separator, region,
                                         a->region_count, to_keys, keys, to_offsets, offsets, to_numbers, numbers, needed);
        bool is_told = code == ZARRS_DONE || code == ZARRS_SHORT, is_done = code == ZARRS_DONE;
        EXPECT(is_told || untouched(f->to_counts, sizeof *needed, 0), "the sizes of a plan told by a refusal");
        EXPECT(untouched(f->to_bytes, keys, is_done ? needed->keys : 0) &&
                   untouched(f->to_offsets, offsets * 8, is_done ? needed->offsets * 8 : 0) &&
                   untouched(f->to_ranges, numbers * 8, is_done ? needed->numbers * 8 : 0), "written behind a plan");
        if (after(f, h, ARRAY_PLAN, code))
            continue;
        if (!is_told)
            return code;
        EXPECT(needed->chunks == wanted->chunks && needed->keys == wanted->len && needed->offsets == wanted->chunks + 1 &&
                   needed->numbers == wanted->numbers, "another number of chunks, or of items");
        EXPECT(is_done == (wanted->len <= keys && wanted->chunks < offsets && wanted->numbers <= numbers), "short where there is room");
        if (is_done) {
            EXPECT(!wanted->len || !memcmp(to_keys, wanted->keys, wanted->len), "other keys than are due");
            EXPECT(!memcmp(to_offsets, wanted->offsets, (wanted->chunks + 1) * 8), "keys end elsewhere");
            EXPECT(!wanted->numbers || !memcmp(to_numbers, wanted->number, wanted->numbers * 8), "other parts than are due");
            return code;
        }
        keys = needed->keys, offsets = needed->offsets, numbers = needed->numbers;
    }
    return ZARRS_OUT_OF_MEMORY;
}

/* Of a part's elements the place among the region's. */
static size_t place_of(const array *a, const uint64_t *part, size_t element)
{
    size_t place = 0, weight = 1;
    for (size_t i = a->axes; i-- > 0; element /= part[2 * a->axes + i]) {
        place += (part[3 * a->axes + i] + element % part[2 * a->axes + i]) * weight;
        weight *= a->region[a->axes + i];
    }
    return place;
}

static uint8_t byte_of(size_t place, size_t byte) { return (uint8_t)(1 + place * 31 + byte * 7); }

/* One part put into a region, or taken out of it; `spoilt` ones have to change nothing. */
static uint32_t move_part(fuzzer *f, const header *h, int kind, size_t size, const array *a, const uint64_t *part, uint8_t *to,
                          size_t len, const uint8_t *from, size_t from_len, size_t part_len)
{
    const uint64_t *lengths = put(f, f->ranges, a->region + a->axes, a->axes * 8), *numbers = put(f, f->numbers, part, part_len * 8);
    const uint8_t *given = put(f, f->bytes, from, from_len);
    uint8_t *moved = blank(f, &f->to_bytes, len);
    if (len)
        memcpy(moved, to, len);
    for (int turn = 0;; turn++) {
        before(f);
        uint32_t code = kind == PART_PUT ? zarrs_part_put(size, lengths, a->axes, numbers, part_len, given, from_len, moved, len)
                                         : zarrs_part_take(size, lengths, a->axes, numbers, part_len, given, from_len, moved, len);
        EXPECT(untouched(f->to_bytes, len, len), "written before the buffer");
        EXPECT(code == ZARRS_DONE || !len || !memcmp(moved, to, len), "a part moved by a refusal");
        if (after(f, h, kind, code))
            continue;
        if (len)
            memcpy(to, moved, len);
        return code;
    }
}

static void move_parts(fuzzer *f, const header *h, const array *a, const due *planned)
{
    static __thread uint8_t region[ROOM], elements[ROOM], taken[ROOM];
    size_t size = 1 + some(f, 9), count = 1;
    for (size_t i = 0; i < a->axes; i++)
        count *= a->region[a->axes + i];
    memset(region, PATTERN, count * size);
    size_t first = some(f, planned->chunks), step = some(f, 2) ? 1 : planned->chunks - 1;
    for (size_t n = 0; n < planned->chunks; n++) {
        uint64_t part[4 * MOST_AXES];
        size_t many = 1, part_len = 4 * a->axes;
        memcpy(part, planned->number + ((first + n * step) % planned->chunks) * part_len, part_len * 8);
        for (size_t i = 0; i < a->axes; i++)
            many *= part[2 * a->axes + i];
        for (size_t i = 0; i < many * size; i++)
            elements[i] = byte_of(place_of(a, part, i / size), i % size), taken[i] = PATTERN;
        if (some(f, 8) == 0) {
            EXPECT(move_part(f, h, PART_PUT, size, a, part, region, count * size, elements, many * size + 1, part_len) ==
                       ZARRS_TARGET_MISMATCH, "a part of other elements is put");
            EXPECT(move_part(f, h, PART_TAKE, size, a, part, taken, many * size, region, count * size + 1, part_len) ==
                       ZARRS_INVALID_BYTES_LENGTH, "a part is taken of another region");
            EXPECT(move_part(f, h, PART_PUT, size, a, part, region, count * size, elements, many * size, part_len + 1) ==
                       ZARRS_ARGUMENT, "a part of other axes is put");
        }
        EXPECT(move_part(f, h, PART_PUT, size, a, part, region, count * size, elements, many * size, part_len) == ZARRS_DONE,
               "a part isn't put");
        EXPECT(move_part(f, h, PART_TAKE, size, a, part, taken, many * size, region, count * size, part_len) == ZARRS_DONE,
               "a part isn't taken");
        EXPECT(!memcmp(taken, elements, many * size), "what is put isn't taken");
        if (a->axes && some(f, 8) == 0) {
            uint64_t *number = &part[2 * a->axes + some(f, 2 * a->axes)];
            *number = some(f, 2) ? *number + 9 : UINT64_MAX - some(f, 3);
            EXPECT(move_part(f, h, PART_TAKE, size, a, part, taken, many * size, region, count * size, part_len) != ZARRS_DONE,
                   "a part that isn't the region's is taken");
        }
    }
    for (size_t i = 0; i < count * size && planned->chunks; i++)
        EXPECT(region[i] == byte_of(i / size, i % size), "parts make another region");
}

/* Plans a region of an array, and moves its parts. */
void look_at_array(fuzzer *f, const header *h)
{
    static __thread due wanted;
    array a;
    make_array(f, &a);
    uint32_t code = code_due(&a);
    if (code == ZARRS_DONE)
        plan_due(&a, &wanted);
    uint32_t told = plan(f, h, &a, &wanted);
    EXPECT(told == code || told == ZARRS_OUT_OF_MEMORY, "a plan of another code than is due");
    if (code == ZARRS_DONE && wanted.chunks)
        move_parts(f, h, &a, &wanted);
}
