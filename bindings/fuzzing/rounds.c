/* Reads in rounds, of which each fetches what the one before it lacks. */
#include "fuzzing.h"
#include <string.h>

/* What was fetched of a value: which bytes, and these as ranges. */
typedef struct {
    bool is_there[ROOM];
    size_t count, len;
    uint64_t range[ROOM / 8];
    uint8_t byte[ROOM];
} pieces;

/* False where there are too many ranges for the fuzzer. */
static bool gather(pieces *have, const value *v)
{
    have->count = have->len = 0;
    for (size_t at = 0; at < v->size; at++) {
        if (!have->is_there[at])
            continue;
        if (have->count + 2 > ROOM / 8)
            return false;
        if (at == 0 || !have->is_there[at - 1])
            have->range[have->count++] = at;
        have->byte[have->len++] = v->byte[at];
        if (at + 1 == v->size || !have->is_there[at + 1])
            have->range[have->count++] = at + 1;
    }
    return true;
}

/* The ranges that a read of pieces lacks, and how many numbers they are. */
static uint32_t ask(fuzzer *f, const header *h, const value *v, const selection *s, const pieces *have, uint64_t *lacking, size_t *count)
{
    size_t room_of = some(f, 8);
    for (int turn = 0; turn < 8; turn++) {
        lent text = {put(f, f->header, h->text, h->len), h->len}, bytes = {put(f, f->fetched, have->byte, have->len), have->len};
        const uint64_t *numbers = put(f, f->numbers, s->number, s->count * 8), *ranges = put(f, f->ranges, have->range, have->count * 8);
        uint64_t *to = blank(f, &f->to_ranges, room_of * 8);
        size_t *needed = blank(f, &f->to_counts, sizeof *needed);
        uint32_t code = BOTH(LACKING, lacking, v->size, ranges, have->count, LENT(bytes), s->tuples, numbers, s->count, to, room_of,
                             needed);
        if (code == ZARRS_OUT_OF_MEMORY)
            continue;
        EXPECT(untouched(f->to_ranges, room_of * 8, code == ZARRS_DONE ? *needed * 8 : 0), "written behind the ranges that are lacking");
        if (code == ZARRS_SHORT) {
            EXPECT(room_of < *needed && *needed <= ROOM / 8, "lacking ranges of another size than was told");
            room_of = *needed;
            continue;
        }
        EXPECT(code == ZARRS_DONE || untouched(f->to_counts, sizeof *needed, 0), "a size told by a refusal");
        if (code == ZARRS_DONE)
            *count = *needed, memcpy(lacking, f->to_ranges.begin + ROOM - room_of * 8, *count * 8);
        return code;
    }
    return ZARRS_OUT_OF_MEMORY;
}

static void fetch(fuzzer *f, const header *h, const value *v, pieces *have, const uint64_t *lacking, size_t count)
{
    EXPECT(count && count % 2 == 0, "a read lacks a byte, and no range is told");
    for (size_t i = 0; i < count; i += 2) {
        EXPECT(lacking[i] < lacking[i + 1] && lacking[i + 1] <= v->size && (i == 0 || lacking[i - 1] < lacking[i]),
               "lacking ranges that touch, are empty or end behind the value");
        for (uint64_t at = lacking[i]; at < lacking[i + 1]; at++) {
            EXPECT(!have->is_there[at], "a byte is lacking that is there");
            have->is_there[at] = true;
        }
    }
}

/* Whether the ranges that are lacking are the planned bytes that aren't there; of a value that is too short any are. */
static bool are_planned(const value *v, const uint64_t *plan, size_t planned, const pieces *have, const uint64_t *lacking, size_t count)
{
    static __thread bool is_lacking[ROOM];
    memset(is_lacking, 0, sizeof is_lacking);
    for (size_t i = 0; i < planned; i += 2) {
        if (plan[i + 1] > v->size)
            return true;
        for (uint64_t at = plan[i]; at < plan[i + 1]; at++)
            is_lacking[at] = !have->is_there[at];
    }
    for (size_t i = 0; i < count; i += 2)
        for (uint64_t at = lacking[i]; at < lacking[i + 1]; at++)
            is_lacking[at] = !is_lacking[at];
    return !memchr(is_lacking, true, v->size);
}

void read_in_rounds(fuzzer *f, const header *h, const value *v, const selection *s, uint32_t code, const elements *read,
    const uint64_t *plan, size_t planned)
{
    static __thread pieces have;
    static __thread elements found;
    static __thread uint64_t lacking[ROOM / 8];
    size_t begun = some(f, 3) ? 0 : 1 + some(f, 9);
    for (size_t at = 0; at < v->size; at++)
        have.is_there[at] = begun && some(f, begun) == 0;
    for (size_t rounds = 0; gather(&have, v); rounds++) {
        size_t count = 0;
        uint32_t by_pieces = tell(f, h, PIECES, true, (lent){have.byte, have.len}, v->size, (lent){(uint8_t *)have.range, have.count * 8},
                                  s, &found);
        uint32_t asked = ask(f, h, v, s, &have, lacking, &count);
        if (by_pieces == ZARRS_OUT_OF_MEMORY || asked == ZARRS_OUT_OF_MEMORY)
            return;
        EXPECT(!plan || asked != ZARRS_DONE || are_planned(v, plan, planned, &have, lacking, count), "other ranges than are planned");
        if (by_pieces != ZARRS_STORAGE) {
            EXPECT(asked == by_pieces && count == 0, "ranges are told where none is lacking, or another code");
            EXPECT(code == ZARRS_OUT_OF_MEMORY || code == by_pieces, "a read in rounds answers another code");
            EXPECT(code != ZARRS_DONE || same_elements(read, &found), "a read in rounds differs");
            return;
        }
        EXPECT(asked == ZARRS_DONE && rounds < (plan ? 1 : v->size), "a read lacks a byte, and that isn't told, or too often");
        fetch(f, h, v, &have, lacking, count);
    }
}
