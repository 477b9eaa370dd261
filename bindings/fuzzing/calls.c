/* Calls, and what each of them alone must keep. */
#include "fuzzing.h"
#include <stdio.h>
#include <stdlib.h>
#include <string.h>

void before(fuzzer *f) { was_refused = false; allocations_left = some(f, 12) ? -1 : (long)some(f, 60); }

/* Of a call that has ended, whether it may be made again, since memory was refused. */
bool after(fuzzer *f, const header *h, int kind, uint32_t code)
{
    allocations_left = -1;
    f->calls[kind]++;
    f->done[kind] += code == ZARRS_DONE;
    if (code != ZARRS_OUT_OF_MEMORY)
        return false;
    EXPECT(was_refused, "ZARRS_OUT_OF_MEMORY where memory wasn't refused");
    f->refused_memory++;
    return true;
}

/* A call that tells elements; `given` is a value, or pieces. */
uint32_t tell(fuzzer *f, const header *h, int kind, bool is_stored, lent given, uint64_t length, lent ranges,
                     const selection *s, elements *e)
{
    lent text = {put(f, f->header, h->text, h->len), h->len};
    lent bytes = {put(f, given.len == 0 ? f->value : kind == PIECES ? f->fetched : f->value, given.at, given.len), given.len};
    const uint64_t *numbers = s ? put(f, f->numbers, s->number, s->count * 8) : NULL;
    const uint64_t *rows = kind == PIECES ? put(f, f->ranges, ranges.at, ranges.len) : NULL;
    size_t masks = some(f, 3) ? some(f, 200) : 0, offsets = some(f, 3) ? some(f, 200) : 0, room_of = some(f, 3) ? some(f, 3000) : 0;
    zarrs_sizes told = {0};
    bool was_short = false;
    for (int turn = 0; turn < 8; turn++) {
        uint32_t code;
        uint8_t *to_masks = blank(f, &f->to_masks, masks), *to_bytes = blank(f, &f->to_bytes, room_of);
        uint64_t *to_offsets = blank(f, &f->to_offsets, offsets * 8);
        zarrs_sizes *sizes = blank(f, &f->to_counts, sizeof *sizes);
        if (kind == DECODE)
            code = BOTH(kind, decode, LENT(bytes), to_masks, masks, to_offsets, offsets, to_bytes, room_of, sizes);
        else if (kind == READ)
            code = BOTH(kind, read, is_stored, LENT(bytes), s->tuples, numbers, s->count, to_masks, masks, to_offsets,
                        offsets, to_bytes, room_of, sizes);
        else
            code = BOTH(kind, read_pieces, length, rows, ranges.len / 8, LENT(bytes), s->tuples, numbers, s->count,
                        to_masks, masks, to_offsets, offsets, to_bytes, room_of, sizes);
        EXPECT(memcmp(text.at ? text.at : (uint8_t *)"", h->text, h->len) == 0, "the header was changed");
        EXPECT(given.len == 0 || memcmp(bytes.at, given.at, given.len) == 0, "the value was changed");
        if (code == ZARRS_DONE) {
            EXPECT(sizes->masks <= masks && sizes->offsets <= offsets && sizes->bytes <= room_of, "more was told than there is room");
            EXPECT(untouched(f->to_masks, masks, sizes->masks) && untouched(f->to_offsets, offsets * 8, sizes->offsets * 8) &&
                       untouched(f->to_bytes, room_of, sizes->bytes), "written behind the answer");
            EXPECT(!was_short || memcmp(sizes, &told, sizeof told) == 0, "other sizes than were told");
            e->masks = sizes->masks, e->offsets = sizes->offsets, e->bytes = sizes->bytes;
            memcpy(e->mask, f->to_masks.begin + ROOM - masks, e->masks);
            memcpy(e->offset, f->to_offsets.begin + ROOM - offsets * 8, e->offsets * 8);
            memcpy(e->byte, f->to_bytes.begin + ROOM - room_of, e->bytes);
            return code;
        }
        EXPECT(untouched(f->to_masks, masks, 0) && untouched(f->to_offsets, offsets * 8, 0) && untouched(f->to_bytes, room_of, 0),
               "written where nothing is answered");
        EXPECT(untouched(f->to_counts, sizeof *sizes, code == ZARRS_SHORT ? sizeof *sizes : 0), "sizes told by a refusal");
        if (code == ZARRS_OUT_OF_MEMORY)
            continue;
        if (code != ZARRS_SHORT)
            return code;
        EXPECT(!was_short, "short again, with as much room as was told");
        EXPECT(sizes->masks <= ROOM && sizes->offsets <= ROOM / 8 && sizes->bytes <= ROOM, "far too much is needed");
        told = *sizes, was_short = true;
        masks = told.masks, offsets = told.offsets, room_of = told.bytes;
    }
    return ZARRS_OUT_OF_MEMORY;
}

/* A call that writes a value. */
void write_value(fuzzer *f, const header *h, int kind, bool is_stored, lent old, const selection *s, const elements *e,
                        lent codecs, value *v)
{
    lent text = {put(f, f->header, h->text, h->len), h->len};
    lent bytes = {put(f, f->value, old.at, old.len), old.len}, other = {put(f, f->codecs, codecs.at, codecs.len), codecs.len};
    const uint64_t *numbers = s ? put(f, f->numbers, s->number, s->count * 8) : NULL;
    const uint8_t *masks = e ? put(f, f->masks, e->mask, e->masks) : NULL, *whole = e ? put(f, f->bytes, e->byte, e->bytes) : NULL;
    const uint64_t *offsets = e ? put(f, f->offsets, e->offset, e->offsets * 8) : NULL;
    size_t len = some(f, 3) ? some(f, 3000) : 0, told = 0;
    bool was_short = false;
    for (int turn = 0; turn < 8; turn++) {
        uint8_t *to = blank(f, &f->to_value, len);
        size_t *needed = blank(f, &f->to_counts, sizeof *needed);
        if (kind == ENCODE)
            v->code = BOTH(kind, encode, masks, e->masks, offsets, e->offsets, whole, e->bytes, to, len, needed);
        else if (kind == WRITE)
            v->code = BOTH(kind, write, is_stored, LENT(bytes), s->tuples, numbers, s->count, masks, e->masks, offsets,
                           e->offsets, whole, e->bytes, to, len, needed);
        else
            v->code = BOTH(kind, reencode, LENT(bytes), LENT(other), to, len, needed);
        EXPECT(old.len == 0 || memcmp(bytes.at, old.at, old.len) == 0, "the value was changed");
        EXPECT(!e || e->bytes == 0 || memcmp(whole, e->byte, e->bytes) == 0, "the elements were changed");
        if (v->code == ZARRS_DONE) {
            EXPECT(*needed <= len && untouched(f->to_value, len, *needed), "written behind the value");
            EXPECT(!was_short || *needed == told, "another size than was told");
            v->size = *needed;
            memcpy(v->byte, f->to_value.begin + ROOM - len, v->size);
            return;
        }
        EXPECT(untouched(f->to_value, len, 0), "written where nothing is answered");
        EXPECT(untouched(f->to_counts, sizeof *needed, v->code == ZARRS_SHORT ? sizeof *needed : 0), "a size told by a refusal");
        if (v->code == ZARRS_OUT_OF_MEMORY)
            continue;
        if (v->code != ZARRS_SHORT)
            return;
        EXPECT(!was_short && *needed <= ROOM, "short again, or far too much is needed");
        told = len = *needed, was_short = true;
    }
}
