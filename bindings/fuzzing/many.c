/* Calls of several selections or edits, beside as many calls of one. */
#include "fuzzing.h"
#include <string.h>

enum { MANY_MOST = 4 };

static void append(elements *all, const elements *one)
{
    memcpy(all->mask + all->masks, one->mask, one->masks);
    memcpy(all->offset + all->offsets, one->offset, one->offsets * 8);
    memcpy(all->byte + all->bytes, one->byte, one->bytes);
    all->masks += one->masks, all->offsets += one->offsets, all->bytes += one->bytes;
}

static bool has_room(const elements *all, const elements *one)
{
    return all->masks + one->masks <= ROOM && all->offsets + one->offsets <= ROOM / 8 && all->bytes + one->bytes <= ROOM;
}

/* Reads several selections by one call, and each by one of its own. */
void read_several(fuzzer *f, const header *h, const value *v, bool is_stored, uint32_t check)
{
    static __thread elements one, all;
    static __thread selection s;
    static __thread uint64_t numbers[ROOM / 8];
    zarrs_selection_size sizes[MANY_MOST];
    size_t many = some(f, MANY_MOST + 1), count = 0;
    uint32_t expected = check;
    all.masks = all.offsets = all.bytes = 0;
    for (size_t i = 0; i < many; i++) {
        make_selection(f, h, &s);
        if (count + s.count > ROOM / 8)
            return;
        memcpy(numbers + count, s.number, s.count * 8);
        count += s.count;
        sizes[i] = (zarrs_selection_size){s.tuples, s.count};
        if (expected != ZARRS_DONE)
            continue;
        expected = tell(f, h, READ, is_stored, (lent){v->byte, v->size}, 0, (lent){0}, &s, &one);
        if (expected == ZARRS_OUT_OF_MEMORY || (expected == ZARRS_DONE && !has_room(&all, &one)))
            return;
        if (expected == ZARRS_DONE)
            append(&all, &one);
    }
    bool is_spoilt = many && some(f, 10) == 0;
    if (is_spoilt)
        sizes[some(f, many)].numbers += 1 + some(f, 3);
    lent text = {put(f, f->header, h->text, h->len), h->len}, bytes = {put(f, f->value, v->byte, v->size), v->size};
    const zarrs_selection_size *of = put(f, f->ranges, sizes, many * sizeof *sizes);
    const uint64_t *given = put(f, f->numbers, numbers, count * 8);
    size_t masks = some(f, 3) ? some(f, 200) : 0, offsets = some(f, 3) ? some(f, 200) : 0, len = some(f, 3) ? some(f, 3000) : 0;
    bool was_short = false;
    for (int turn = 0; turn < 8; turn++) {
        uint8_t *to_masks = blank(f, &f->to_masks, masks), *to_bytes = blank(f, &f->to_bytes, len);
        uint64_t *to_offsets = blank(f, &f->to_offsets, offsets * 8);
        zarrs_sizes *needed = blank(f, &f->to_counts, sizeof *needed);
        uint32_t code = BOTH(MANY, read_many, is_stored, LENT(bytes), of, many, given, count, to_masks, masks,
                             to_offsets, offsets, to_bytes, len, needed);
        if (code == ZARRS_DONE) {
            EXPECT(!is_spoilt && expected == ZARRS_DONE, "several selections are read, and one of them isn't");
            EXPECT(needed->masks == all.masks && needed->offsets == all.offsets && needed->bytes == all.bytes,
                   "several selections have other counts than each of them");
            EXPECT(!memcmp(f->to_masks.begin + ROOM - masks, all.mask, all.masks) &&
                       !memcmp(f->to_offsets.begin + ROOM - offsets * 8, all.offset, all.offsets * 8) &&
                       !memcmp(f->to_bytes.begin + ROOM - len, all.byte, all.bytes), "several selections differ from each of them");
            EXPECT(untouched(f->to_masks, masks, all.masks) && untouched(f->to_offsets, offsets * 8, all.offsets * 8) &&
                       untouched(f->to_bytes, len, all.bytes), "written behind the answers");
            return;
        }
        EXPECT(untouched(f->to_masks, masks, 0) && untouched(f->to_offsets, offsets * 8, 0) && untouched(f->to_bytes, len, 0),
               "written where nothing is answered");
        EXPECT(untouched(f->to_counts, sizeof *needed, code == ZARRS_SHORT ? sizeof *needed : 0), "sizes told by a refusal");
        if (code == ZARRS_OUT_OF_MEMORY)
            continue;
        if (code != ZARRS_SHORT) {
            EXPECT(is_spoilt || code == expected, "several selections are refused for another cause than the first of them");
            return;
        }
        EXPECT(!was_short && !is_spoilt && expected == ZARRS_DONE, "short again, or where nothing is due");
        masks = needed->masks, offsets = needed->offsets, len = needed->bytes, was_short = true;
        EXPECT(masks == all.masks && offsets == all.offsets && len == all.bytes, "other sizes than are due");
    }
}

/* Makes several edits by one call, and each by a write. */
void edit_several(fuzzer *f, const header *h, const value *v)
{
    static __thread elements given;
    static __thread selection s;
    static __thread value left[MANY_MOST + 1];
    static __thread uint64_t numbers[ROOM / 8];
    static __thread uint8_t bytes[ROOM];
    zarrs_edit_size sizes[MANY_MOST];
    size_t many = some(f, MANY_MOST + 1), count = 0, len = 0, done = 0;
    uint32_t expected = ZARRS_DONE;
    left[0] = *v;
    for (size_t i = 0; i < many; i++) {
        static __thread size_t place[ROOM];
        make_selection(f, h, &s);
        size_t of = places(h, &s, place);
        make_elements(f, h, of == SIZE_MAX || some(f, 9) == 0 ? some(f, 9) : of, &given);
        given.masks = given.offsets = 0;
        if (count + s.count > ROOM / 8 || len + given.bytes > ROOM)
            return;
        memcpy(numbers + count, s.number, s.count * 8);
        memcpy(bytes + len, given.byte, given.bytes);
        count += s.count, len += given.bytes;
        sizes[i] = (zarrs_edit_size){s.tuples, s.count, given.bytes};
        if (expected != ZARRS_DONE)
            continue;
        write_value(f, h, WRITE, true, (lent){left[i].byte, left[i].size}, &s, &given, (lent){0}, &left[i + 1]);
        expected = left[i + 1].code;
        if (expected == ZARRS_OUT_OF_MEMORY)
            return;
        done += expected == ZARRS_DONE;
    }
    bool is_spoilt = many && some(f, 10) == 0;
    if (is_spoilt)
        sizes[some(f, many)].bytes += 1 + some(f, 3);
    lent text = {put(f, f->header, h->text, h->len), h->len};
    const zarrs_edit_size *of = put(f, f->ranges, sizes, many * sizeof *sizes);
    const uint64_t *at = put(f, f->numbers, numbers, count * 8);
    const uint8_t *new = put(f, f->bytes, bytes, len);
    uint8_t *to = blank(f, &f->to_value, v->size);
    size_t *made = blank(f, &f->to_counts, sizeof *made);
    if (v->size)
        memcpy(to, v->byte, v->size);
    uint32_t code = BOTH(EDIT, edit, to, v->size, of, many, at, count, new, len, made);
    size_t told = *made;
    EXPECT(told <= many && untouched(f->to_value, v->size, v->size), "more edits than there are, or bytes before the value");
    if (code == ZARRS_NOT_IN_PLACE || is_spoilt) {
        EXPECT(code != ZARRS_DONE && told == 0, "edits where none can be made");
    } else if (code == ZARRS_OUT_OF_MEMORY) {
        EXPECT(told <= done, "more edits than can be made");
    } else {
        EXPECT(code == expected && told == done, "edits end elsewhere than writes do");
    }
    EXPECT(left[told].size == v->size, "an edited value grows");
    EXPECT(v->size == 0 || !memcmp(to, left[told].byte, v->size), "edits leave another value than writes do");
}
