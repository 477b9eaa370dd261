/* What calls must answer together. */
#include "fuzzing.h"
#include <stdio.h>
#include <stdlib.h>
#include <string.h>

bool same_elements(const elements *a, const elements *b)
{
    return a->masks == b->masks && a->offsets == b->offsets && a->bytes == b->bytes && !memcmp(a->mask, b->mask, a->masks) &&
           !memcmp(a->offset, b->offset, a->offsets * 8) && !memcmp(a->byte, b->byte, a->bytes);
}

/* Whether element i of `count` is element j of `others`. */
static bool same_element(const header *h, const elements *a, size_t i, size_t count, const elements *b, size_t j, size_t others)
{
    for (size_t level = 0; level < h->levels; level++) {
        uint8_t is_there = a->mask[level * count + i];
        if (is_there != b->mask[level * others + j])
            return false;
        if (!is_there)
            return true;
    }
    if (h->size)
        return memcmp(a->byte + i * h->size, b->byte + j * h->size, h->size) == 0;
    size_t len = a->offset[i + 1] - a->offset[i];
    return len == b->offset[j + 1] - b->offset[j] && memcmp(a->byte + a->offset[i], b->byte + b->offset[j], len) == 0;
}

static void look_tight(fuzzer *f, const header *h, const elements *e, size_t count)
{
    EXPECT(e->masks == count * h->levels && e->offsets == (h->size ? 0 : count + 1), "other counts than the type has");
    EXPECT(!h->size || e->bytes == count * h->size, "another length than the type has");
    if (f->is_loose)
        return;
    for (size_t i = 0; i < e->masks; i++)
        EXPECT(e->mask[i] <= 1, "a mask byte that is neither 0 nor 1");
    if (e->offsets)
        EXPECT(e->offset[0] == 0 && e->offset[count] == e->bytes, "offsets don't begin at 0 and end at the bytes' end");
    for (size_t i = 0; i + 1 < e->offsets; i++)
        EXPECT(e->offset[i] <= e->offset[i + 1], "offsets fall");
}

/* Whether a read is planned: the ranges, and how many numbers they are. */
static bool plan_of(fuzzer *f, const header *h, const selection *s, uint64_t *ranges, size_t *needed)
{
    size_t room_of = some(f, 40);
    for (int turn = 0; turn < 8; turn++) {
        lent text = {put(f, f->header, h->text, h->len), h->len};
        const uint64_t *numbers = put(f, f->numbers, s->number, s->count * 8);
        uint64_t *to = blank(f, &f->to_ranges, room_of * 8);
        struct { size_t needed; bool is_planned; } *told = blank(f, &f->to_counts, sizeof *told);
        uint32_t plan = BOTH(PLAN, planned_ranges, s->tuples, numbers, s->count, to, room_of, &told->is_planned, &told->needed);
        if (plan == ZARRS_OUT_OF_MEMORY)
            continue;
        bool is_told = plan == ZARRS_DONE || plan == ZARRS_SHORT;
        EXPECT(is_told || untouched(f->to_counts, sizeof *told, 0), "a plan told by a refusal");
        if (!is_told)
            return false;
        *needed = told->needed;
        EXPECT(untouched(f->to_ranges, room_of * 8, plan == ZARRS_DONE ? *needed * 8 : 0), "written behind the plan");
        if (plan == ZARRS_SHORT) {
            EXPECT(room_of < *needed && *needed <= ROOM / 8, "a plan of another size than was told");
            room_of = *needed;
            continue;
        }
        if (told->is_planned)
            memcpy(ranges, f->to_ranges.begin + ROOM - room_of * 8, *needed * 8);
        return told->is_planned;
    }
    return false;
}

/* Reads a selection in all ways; `chunk` is the whole where it is known. */
static void read_all_ways(fuzzer *f, const header *h, const value *v, const elements *chunk)
{
    static __thread elements read, pieces;
    static __thread selection s;
    static __thread size_t place[ROOM];
    static __thread uint64_t ranges[ROOM / 8];
    static __thread uint8_t fetched[ROOM];
    make_selection(f, h, &s);
    size_t count = places(h, &s, place), needed = 0, len = 0;
    uint32_t code = tell(f, h, READ, true, (lent){v->byte, v->size}, 0, (lent){0}, &s, &read);
    EXPECT(code != ZARRS_DONE || count != SIZE_MAX, "a selection outside the chunk was read");
    if (code == ZARRS_DONE) {
        look_tight(f, h, &read, count);
        for (size_t i = 0; chunk && i < count; i++)
            EXPECT(same_element(h, &read, i, count, chunk, place[i], h->count), "a read differs from the chunk");
    }
    EXPECT(!chunk || count == SIZE_MAX || code == ZARRS_DONE, "a good selection of a good value isn't read");
    bool is_planned = plan_of(f, h, &s, ranges, &needed);
    if (count != SIZE_MAX)
        read_in_rounds(f, h, v, &s, code, &read, is_planned ? ranges : NULL, needed);
    if (!is_planned)
        return;
    size_t kept = 0;
    for (size_t i = 0; i + 1 < needed; i += 2) {
        EXPECT(ranges[i] < ranges[i + 1] && (i == 0 || ranges[i - 1] < ranges[i]), "ranges that touch or are empty");
        if (ranges[i + 1] > v->size)
            continue;
        memcpy(fetched + len, v->byte + ranges[i], ranges[i + 1] - ranges[i]);
        len += ranges[i + 1] - ranges[i];
        ranges[kept++] = ranges[i], ranges[kept++] = ranges[i + 1];
    }
    bool is_whole = kept == needed;
    if (some(f, 12) == 0 && kept) {
        ranges[some(f, kept)] += 1 + some(f, 3);
        is_whole = false;
    }
    uint32_t by_pieces = tell(f, h, PIECES, true, (lent){fetched, len}, v->size, (lent){(uint8_t *)ranges, kept * 8}, &s, &pieces);
    if (is_whole && count != SIZE_MAX && code != ZARRS_OUT_OF_MEMORY && by_pieces != ZARRS_OUT_OF_MEMORY) {
        EXPECT(code == by_pieces, "a read by pieces answers another code");
        EXPECT(code != ZARRS_DONE || same_elements(&read, &pieces), "a read by pieces differs");
    }
}

static void write_all_ways(fuzzer *f, const header *h, const value *v, const elements *chunk)
{
    static __thread elements given, known, changed;
    static __thread selection s;
    static __thread value written, again;
    static __thread size_t place[ROOM];
    make_selection(f, h, &s);
    size_t count = places(h, &s, place);
    make_elements(f, h, count == SIZE_MAX ? some(f, 9) : count, &given);
    bool is_stored = some(f, 4);
    lent old = {v->byte, v->size};
    write_value(f, h, WRITE, is_stored, old, &s, &given, (lent){0}, &written);
    EXPECT(written.code != ZARRS_DONE || count != SIZE_MAX, "a selection outside the chunk was written");
    if (written.code != ZARRS_DONE || !chunk || !is_stored)
        return;
    /* elements as the codecs keep them, so that what is written is what is read */
    EXPECT(tell(f, h, READ, true, (lent){written.byte, written.size}, 0, (lent){0}, &s, &known) == ZARRS_DONE, "what was written isn't read");
    write_value(f, h, WRITE, true, old, &s, &known, (lent){0}, &again);
    if (again.code == ZARRS_OUT_OF_MEMORY)
        return;
    EXPECT(again.code == ZARRS_DONE, "what was read isn't written again");
    EXPECT(again.size == written.size && !memcmp(again.byte, written.byte, again.size), "what was read is written differently");
    uint32_t code = tell(f, h, DECODE, true, (lent){again.byte, again.size}, 0, (lent){0}, NULL, &changed);
    EXPECT(code == ZARRS_DONE || code == ZARRS_OUT_OF_MEMORY, "what was written isn't a value");
    for (size_t i = 0; code == ZARRS_DONE && i < h->count; i++) {
        bool is_new = false;
        for (size_t j = 0; j < count; j++)
            is_new |= place[j] == i;
        EXPECT(is_new || same_element(h, &changed, i, h->count, chunk, i, h->count), "a write changed another element");
    }
}

/* A value of a plain vlen whose offsets begin above 0, as other writers store a slice of a list: the same chunk. */
static void look_loose(fuzzer *f, const header *h, const value *v, const elements *chunk)
{
    static __thread value moved;
    static __thread elements found;
    size_t by = 1 + some(f, 4), index = (h->count + 1) * h->index, data = v->size - 8 - index;
    const uint8_t *from = v->byte + (h->is_end ? data : 8);
    uint8_t *to = moved.byte + (h->is_end ? by + data : 8);
    memcpy(moved.byte, v->byte, 8);
    for (size_t i = 0; i <= h->count; i++) {
        uint64_t offset = 0;
        memcpy(&offset, from + i * h->index, h->index);
        offset += by;
        memcpy(to + i * h->index, &offset, h->index);
    }
    uint8_t *into = moved.byte + (h->is_end ? 0 : 8 + index);
    memset(into, 'x', by);
    memcpy(into + by, v->byte + (h->is_end ? 0 : 8 + index), data);
    if (h->is_end)
        memcpy(moved.byte + by + data + index, v->byte + data + index, 8);
    moved.size = v->size + by;
    uint32_t code = tell(f, h, DECODE, true, (lent){moved.byte, moved.size}, 0, (lent){0}, NULL, &found);
    EXPECT(code == ZARRS_DONE || code == ZARRS_OUT_OF_MEMORY, "offsets that begin above 0 aren't read");
    if (code == ZARRS_DONE && !f->is_loose)
        EXPECT(same_elements(&found, chunk), "offsets that begin above 0 are of other elements");
    read_all_ways(f, h, &moved, f->is_loose ? NULL : chunk);
    write_all_ways(f, h, &moved, f->is_loose ? NULL : chunk);
}

void turn(fuzzer *f)
{
    static __thread header spoilt, good;
    static __thread elements given, chunk, other;
    static __thread value v, again, moved;
    header *h = &good;
    struct { uint64_t size; uint32_t kind; } told;
    uint32_t code;
    bool is_taken = take(f, h);
    if (!is_taken)
        make_header(f, h);
    if (!is_taken && some(f, 8) == 0) {
        spoilt = good;
        spoilt.len = spoil(f, (uint8_t *)spoilt.text, spoilt.len);
        h = &spoilt;
    }
    lent text = {put(f, f->header, h->text, h->len), h->len};
    before(f);
    uint32_t check = zarrs_check(LENT(text));
    while (after(f, h, CHECK, check))
        check = zarrs_check(LENT(text));
    EXPECT(!is_taken || check == ZARRS_DONE, "a header of a chain that is kept is refused");
    if (!is_taken)
        keep(f, h, check);
    text.at = put(f, f->header, h->text, h->len);
    void *to = blank(f, &f->to_counts, sizeof told);
    code = BOTH(REPRESENTATION, representation, (uint32_t *)((uint8_t *)to + 8), to);
    memcpy(&told, to, sizeof told);
    EXPECT(code == check || code == ZARRS_OUT_OF_MEMORY, "check and representation differ");
    EXPECT(code == ZARRS_DONE ? told.kind <= 2 : untouched(f->to_counts, sizeof told, 0), "a representation that is none");
    look_at_array(f, h);
    make_elements(f, h, h->count, &given);
    write_value(f, h, ENCODE, true, (lent){0}, NULL, &given, (lent){0}, &v);
    if (check != ZARRS_DONE) {
        EXPECT(v.code == check || v.code == ZARRS_OUT_OF_MEMORY, "encode takes a header that check refuses");
        code = tell(f, h, DECODE, true, (lent){(uint8_t *)"abcdefgh", some(f, 9)}, 0, (lent){0}, NULL, &chunk);
        EXPECT(code == check || code == ZARRS_OUT_OF_MEMORY, "decode takes a header that check refuses");
        v.size = some(f, 9), memset(v.byte, 1, v.size);
        if (h == &good) {
            read_all_ways(f, h, &v, NULL);
            write_all_ways(f, h, &v, NULL);
            read_several(f, h, &v, true, check);
        }
        return;
    }
    if (h == &spoilt)
        return;
    if (v.code == ZARRS_DONE) {
        EXPECT(code != ZARRS_DONE || (told.kind == 0 ? v.size == told.size : told.kind == 2 || v.size <= told.size),
               "a value of another length than is told");
        code = tell(f, h, DECODE, true, (lent){v.byte, v.size}, 0, (lent){0}, NULL, &chunk);
        if (code != ZARRS_DONE) {
            EXPECT(code == ZARRS_OUT_OF_MEMORY, "what was encoded isn't a value");
            return;
        }
        look_tight(f, h, &chunk, h->count);
        write_value(f, h, ENCODE, true, (lent){0}, NULL, &chunk, (lent){0}, &again);
        EXPECT(again.code == ZARRS_OUT_OF_MEMORY || (again.code == ZARRS_DONE && again.size == v.size && !memcmp(again.byte, v.byte, v.size)),
               "what was decoded is encoded differently");
        read_all_ways(f, h, &v, &chunk);
        write_all_ways(f, h, &v, &chunk);
        read_several(f, h, &v, some(f, 4), check);
        edit_several(f, h, &v);
        if (h->index)
            look_loose(f, h, &v, &chunk);
        char codecs[ROOM / 2];
        size_t len = 0;
        add_codecs(f, codecs, &len, h, h->levels);
        if (some(f, 10) == 0)
            len = spoil(f, (uint8_t *)codecs, len);
        write_value(f, h, REENCODE, true, (lent){v.byte, v.size}, NULL, NULL, (lent){(uint8_t *)codecs, len}, &moved);
    } else {
        v.size = some(f, 60);
        for (size_t i = 0; i < v.size; i++)
            v.byte[i] = (uint8_t)(some(f, 2) ? some(f, 4) : some(f, 256));
    }
    v.size = spoil(f, v.byte, v.size);
    code = tell(f, h, DECODE, true, (lent){v.byte, v.size}, 0, (lent){0}, NULL, &other);
    if (code == ZARRS_DONE)
        look_tight(f, h, &other, h->count);
    read_all_ways(f, h, &v, NULL);
    write_all_ways(f, h, &v, NULL);
    read_several(f, h, &v, true, check);
    edit_several(f, h, &v);
    size_t room_of = some(f, 65), needed;
    uint8_t *name = blank(f, &f->to_bytes, room_of);
    code = zarrs_error_name((uint32_t)some(f, 300), name, room_of, &needed);
    after(f, h, NAME, code);
    EXPECT(needed < 64 && code == (needed <= room_of ? ZARRS_DONE : ZARRS_SHORT), "an error's name");
    EXPECT(code == ZARRS_SHORT || needed == room_of || name[needed] == 0, "an error's name without an end");
    EXPECT(untouched(f->to_bytes, room_of, code == ZARRS_SHORT ? 0 : needed < room_of ? needed + 1 : needed), "written behind a name");
}
