/* Headers, elements, selections and values, right ones and spoilt ones. */
#include "fuzzing.h"
#include <stdarg.h>
#include <stdio.h>
#include <stdlib.h>
#include <string.h>

static void add(char *text, size_t *len, const char *form, ...)
{
    va_list words;
    va_start(words, form);
    *len += (size_t)vsnprintf(text + *len, ROOM / 2 - *len, form, words);
    va_end(words);
}

static void add_moves(fuzzer *f, char *text, size_t *len, uint64_t *shape, size_t *axes)
{
    while (some(f, 3) == 0) {
        if (some(f, 6) == 0) {
            uint64_t all = 1;
            for (size_t i = 0; i < *axes; i++)
                all *= shape[i];
            shape[0] = all, *axes = 1;
            add(text, len, "{\"name\":\"reshape\",\"configuration\":{\"shape\":[-1]}},");
        } else if (some(f, 5) == 0) {
            size_t kept = 0;
            for (size_t i = 0; i < *axes; i++)
                if (shape[i] != 1)
                    shape[kept++] = shape[i];
            *axes = kept;
            add(text, len, "\"zarrs.squeeze\",");
        } else {
            uint64_t order[AXES], moved[AXES];
            for (size_t i = 0; i < *axes; i++)
                order[i] = i;
            for (size_t i = *axes; i > 1; i--) {
                size_t j = some(f, i);
                uint64_t kept = order[i - 1];
                order[i - 1] = order[j], order[j] = kept;
            }
            add(text, len, "{\"name\":\"transpose\",\"configuration\":{\"order\":[");
            for (size_t i = 0; i < *axes; i++) {
                moved[i] = shape[order[i]];
                add(text, len, "%s%d", i ? "," : "", (int)order[i]);
            }
            add(text, len, "]}},");
            memcpy(shape, moved, *axes * sizeof *shape);
        }
    }
}

static void add_fixed(fuzzer *f, char *text, size_t *len)
{
    static const char *const paddings[] = {"none", "first_byte", "last_byte"};
    if (some(f, 3))
        add(text, len, "{\"name\":\"bytes\",\"configuration\":{\"endian\":\"%s\"}}", some(f, 2) ? "big" : "little");
    else if (some(f, 4))
        add(text, len, "{\"name\":\"packbits\",\"configuration\":{\"padding_encoding\":\"%s\"}}", paddings[some(f, 3)]);
    else
        add(text, len, "{\"name\":\"packbits\",\"configuration\":{\"first_bit\":%d,\"last_bit\":%d}}", (int)some(f, 3),
            (int)some(f, 9));
}

static void add_list(fuzzer *f, char *text, size_t *len, const header *h, size_t levels, const uint64_t *sizes, size_t axes,
                     bool is_inner);

/* Inner chunks, few of them: of each axis the whole, a half, or each by itself. */
static void add_shards(fuzzer *f, char *text, size_t *len, const header *h, const uint64_t *shape, size_t axes)
{
    uint64_t part[AXES] = {0};
    add(text, len, "{\"name\":\"sharding_indexed\",\"configuration\":{\"chunk_shape\":[");
    for (size_t i = 0; i < axes; i++) {
        part[i] = some(f, 2) ? shape[i] : shape[i] % 2 == 0 ? shape[i] / 2 : shape[i] < 4 ? 1 : shape[i];
        add(text, len, "%s%d", i ? "," : "", (int)part[i]);
    }
    add(text, len, "],\"codecs\":");
    add_list(f, text, len, h, h->levels, part, axes, true);
    add(text, len, ",\"index_codecs\":[{\"name\":\"bytes\",\"configuration\":{\"endian\":\"%s\"}}%s]", some(f, 3) ? "little" : "big",
        some(f, 2) ? ",\"crc32c\"" : "");
    add(text, len, ",\"index_location\":\"%s\"}}", some(f, 2) ? "start" : "end");
}

static void add_list(fuzzer *f, char *text, size_t *len, const header *h, size_t levels, const uint64_t *sizes, size_t axes,
                     bool is_inner)
{
    uint64_t shape[AXES] = {0};
    size_t one = 1;
    memcpy(shape, sizes, sizeof shape);
    if (levels < h->levels) /* elements that are there, in a row */
        axes = 1;
    add(text, len, "[");
    if (levels == h->levels)
        add_moves(f, text, len, shape, &axes);
    if (levels == h->levels && !is_inner && some(f, 4) == 0) {
        add_shards(f, text, len, h, shape, axes);
    } else if (levels > 0) {
        add(text, len, "{\"name\":\"zarrs.optional\",\"configuration\":{\"mask_codecs\":[");
        if (levels == h->levels)
            add_moves(f, text, len, shape, &axes);
        add(text, len, "\"%s\"],\"data_codecs\":", some(f, 2) ? "bytes" : "packbits");
        add_list(f, text, len, h, levels - 1, sizes, axes, is_inner);
        add(text, len, "}}");
    } else if (h->size) {
        add_fixed(f, text, len);
    } else {
        uint64_t index[AXES] = {h->count + 1};
        add(text, len, "{\"name\":\"zarrs.vlen\",\"configuration\":{\"index_codecs\":[");
        add_moves(f, text, len, index, &one);
        add_fixed(f, text, len);
        add(text, len, "],\"data_codecs\":[\"%s\"],\"index_data_type\":\"uint%d\",\"index_location\":\"%s\"}}",
            some(f, 3) ? "bytes" : "packbits", some(f, 2) ? 32 : 64, some(f, 2) ? "start" : "end");
    }
    add(text, len, is_inner && levels == h->levels && some(f, 3) == 0 ? ",\"crc32c\"]" : "]");
}

void add_codecs(fuzzer *f, char *text, size_t *len, const header *h, size_t levels)
{
    add_list(f, text, len, h, levels, h->shape, h->axes, false);
}

/* A header of a small chunk; now and then a spoilt one. */
void make_header(fuzzer *f, header *h)
{
    char type[256], fill[256] = "";
    size_t len = 0, fill_len = 0, bits = (size_t)8 << some(f, 4), parts = 1 + some(f, 3), end = 0;
    memset(h, 0, sizeof *h);
    h->axes = some(f, AXES);
    h->count = 1;
    for (size_t i = 0; i < h->axes; i++) {
        h->shape[i] = 1 + some(f, 4);
        h->count *= h->shape[i];
    }
    h->levels = some(f, 3) ? 0 : 1 + some(f, 2);
    for (size_t i = 0; i < h->levels; i++)
        len += (size_t)sprintf(type + len, "{\"optional\":");
    h->is_signed = some(f, 2);
    switch (some(f, 8)) {
    case 0: case 1:
        h->is_text = some(f, 2);
        len += (size_t)sprintf(type + len, "\"%s\"", h->is_text ? "string" : "bytes");
        break;
    case 2:
        h->size = 1, h->narrow = 1;
        len += (size_t)sprintf(type + len, "\"bool\"");
        break;
    case 3:
        h->size = 1, h->narrow = some(f, 2) ? 2 : 4;
        len += (size_t)sprintf(type + len, "\"%sint%d\"", h->is_signed ? "" : "u", h->narrow);
        break;
    case 4:
        h->size = bits / 8 * parts;
        len += (size_t)sprintf(type + len, "{\"components\":{\"bits\":%d,\"count\":%d,\"signed\":%s}}", (int)bits, (int)parts,
                               h->is_signed ? "true" : "false");
        break;
    default:
        h->size = bits / 8;
        len += (size_t)sprintf(type + len, "\"%sint%d\"", h->is_signed ? "" : "u", (int)bits);
    }
    for (size_t i = 0; i < h->levels; i++)
        len += (size_t)sprintf(type + len, "}");
    if (h->levels == 0 || some(f, 3)) {
        for (size_t i = 0; i < (h->size ? h->size : some(f, 5)); i++)
            fill_len += (size_t)sprintf(fill + fill_len, "%02x", h->narrow ? (int)some(f, 2) : h->is_text ? 'a' : (int)some(f, 256));
        for (size_t i = 0; i < h->levels; i++)
            fill_len += (size_t)sprintf(fill + fill_len, "01");
    } else {
        fill_len += (size_t)sprintf(fill, h->levels == 2 && some(f, 2) ? "0001" : "00");
    }
    if (h->size == 0 && h->levels == 0 && some(f, 3) == 0) {
        h->index = some(f, 2) ? 4 : 8, h->is_end = some(f, 2);
        add(h->codecs, &h->codecs_len,
            "[{\"name\":\"zarrs.vlen\",\"configuration\":{\"index_codecs\":[{\"name\":\"bytes\",\"configuration\":{\"endian\":"
            "\"little\"}}],\"data_codecs\":[\"bytes\"],\"index_data_type\":\"uint%d\",\"index_location\":\"%s\"}}]",
            (int)h->index * 8, h->is_end ? "end" : "start");
    } else {
        add_codecs(f, h->codecs, &h->codecs_len, h, h->levels);
    }
    add(h->text, &end, "{\"shape\":[");
    for (size_t i = 0; i < h->axes; i++)
        add(h->text, &end, "%s%d", i ? "," : "", (int)h->shape[i]);
    add(h->text, &end, "],\"data_type\":%s,\"fill_value\":\"%s\",\"codecs\":%s}", type, fill, h->codecs);
    h->len = end;
}

size_t spoil(fuzzer *f, uint8_t *bytes, size_t len)
{
    static const char *const words[] = {"{", "}", "[", "]", "\"", ",", "0", "-1", "18446744073709551616", "null", "1e9", "\\u0000"};
    for (uint64_t times = 1 + some(f, 3); times; times--) {
        size_t at = some(f, len + 1);
        const char *word = words[some(f, 12)];
        switch (some(f, 4)) {
        case 0:
            if (at < len)
                bytes[at] = (uint8_t)some(f, 256);
            break;
        case 1:
            len = some(f, 4) ? len : at;
            break;
        case 2:
            if (at < len) {
                memmove(bytes + at, bytes + at + 1, len - at - 1);
                len--;
            }
            break;
        default:
            if (len + 32 < ROOM / 2) {
                memmove(bytes + at + strlen(word), bytes + at, len - at);
                memcpy(bytes + at, word, strlen(word));
                len += strlen(word);
            }
        }
    }
    return len;
}

void make_elements(fuzzer *f, const header *h, size_t count, elements *e)
{
    e->masks = count * h->levels;
    for (size_t i = 0; i < e->masks; i++)
        e->mask[i] = (uint8_t)some(f, 2);
    e->offsets = h->size ? 0 : count + 1;
    e->bytes = h->size * count;
    for (size_t i = 0; i < e->offsets; i++) {
        e->offset[i] = e->bytes;
        e->bytes += i < count ? some(f, 2) * some(f, 9) : 0;
    }
    for (size_t i = 0; i < e->bytes; i++)
        e->byte[i] = h->narrow ? (uint8_t)some(f, 2) : h->is_text ? (uint8_t)('a' + some(f, 26)) : (uint8_t)some(f, 256);
    if (some(f, 40) == 0) { /* spoilt ones */
        size_t *sizes[] = {&e->masks, &e->offsets, &e->bytes};
        size_t *one = sizes[some(f, 3)];
        if (some(f, 2) && e->offsets)
            e->offset[some(f, e->offsets)] = some(f, 2) ? some(f, 9) : ~some(f, 9);
        else if (some(f, 2) && e->masks)
            e->mask[some(f, e->masks)] = (uint8_t)some(f, 256);
        else
            *one = some(f, 2) ? *one + some(f, 9) : *one - (*one ? some(f, *one) : 0);
    }
}

void make_selection(fuzzer *f, const header *h, selection *s)
{
    s->count = 0;
    if (some(f, 2)) {
        s->tuples = ZARRS_BOX;
        s->count = 2 * h->axes;
        for (size_t i = 0; i < h->axes; i++) {
            s->number[i] = some(f, h->shape[i] + 1);
            s->number[h->axes + i] = some(f, h->shape[i] - s->number[i] + 1);
        }
    } else {
        s->tuples = some(f, 12);
        for (size_t i = 0; i < s->tuples; i++)
            for (size_t axis = 0; axis < h->axes; axis++)
                s->number[s->count++] = some(f, h->shape[axis]);
    }
    if (some(f, 20) == 0) {
        if (s->count && some(f, 2))
            s->number[some(f, s->count)] = some(f, 2) ? some(f, 9) : ~some(f, 9);
        else if (some(f, 2))
            s->count += some(f, 3);
        else
            s->tuples = some(f, 2) || h->axes == 0 ? some(f, 9) : ~some(f, 9); /* so many of no axes would be right */
    }
}

/* How many elements a selection of a chunk means, and the place of each, row by row; SIZE_MAX where it is none. */
size_t places(const header *h, const selection *s, size_t *place)
{
    size_t count = 1;
    if (s->tuples != ZARRS_BOX) {
        if (s->tuples > 64 || s->count != s->tuples * h->axes)
            return SIZE_MAX;
        for (size_t i = 0; i < s->tuples; i++) {
            place[i] = 0;
            for (size_t axis = 0; axis < h->axes; axis++) {
                uint64_t index = s->number[i * h->axes + axis];
                if (index >= h->shape[axis])
                    return SIZE_MAX;
                place[i] = place[i] * h->shape[axis] + index;
            }
        }
        return s->tuples;
    }
    if (s->count != 2 * h->axes)
        return SIZE_MAX;
    for (size_t axis = 0; axis < h->axes; axis++) {
        uint64_t start = s->number[axis], length = s->number[h->axes + axis];
        if (start > h->shape[axis] || length > h->shape[axis] - start)
            return SIZE_MAX;
        count *= length;
    }
    for (size_t i = 0; i < count; i++) {
        size_t left = i, stride = 1;
        place[i] = 0;
        for (size_t axis = h->axes; axis-- > 0;) {
            uint64_t length = s->number[h->axes + axis];
            place[i] += stride * (s->number[axis] + left % length);
            stride *= h->shape[axis];
            left /= length;
        }
    }
    return count;
}
