#include "kernels.h"
#include <string.h>

/* Squares of so many rows and columns stay in the nearest cache. */
#define TILE 32

void transpose_u32(const uint8_t *in8, size_t rows, size_t columns, bool swaps, uint8_t *out8) {
    const uint32_t *in = (const void *)in8;
    uint32_t *out = (void *)out8;
    for (size_t top = 0; top < rows; top += TILE)
        for (size_t left = 0; left < columns; left += TILE)
            for (size_t x = left; x < left + TILE && x < columns; x++)
                for (size_t y = top; y < top + TILE && y < rows; y++) {
                    uint32_t element = in[y * columns + x];
                    out[x * rows + y] = swaps ? __builtin_bswap32(element) : element;
                }
}

void transpose_u8(const uint8_t *in, size_t rows, size_t columns, uint8_t *out) {
    for (size_t top = 0; top < rows; top += TILE)
        for (size_t left = 0; left < columns; left += TILE)
            for (size_t x = left; x < left + TILE && x < columns; x++)
                for (size_t y = top; y < top + TILE && y < rows; y++) out[x * rows + y] = in[y * columns + x];
}

void swap_runs(const uint8_t *in, size_t a, size_t b, size_t run, uint8_t *out) {
    for (size_t y = 0; y < b; y++)
        for (size_t x = 0; x < a; x++) memcpy(out + (y * a + x) * run, in + (x * b + y) * run, run);
}

void reverse_cube_u32(const uint8_t *in8, size_t side, uint8_t *out8) {
    const uint32_t *in = (const void *)in8;
    uint32_t *out = (void *)out8;
    for (size_t y = 0; y < side; y++)
        for (size_t top = 0; top < side; top += TILE)
            for (size_t left = 0; left < side; left += TILE)
                for (size_t x = left; x < left + TILE && x < side; x++)
                    for (size_t z = top; z < top + TILE && z < side; z++)
                        out[(x * side + y) * side + z] = in[(z * side + y) * side + x];
}

/* The eight bits of a byte as eight bytes, by multiplying, and back. */
static inline uint64_t spread(uint8_t byte) {
    uint64_t bits = (byte * 0x0101010101010101ull) & 0x8040201008040201ull;
    return ((bits + 0x7f7f7f7f7f7f7f7full) >> 7) & 0x0101010101010101ull;
}

static inline uint8_t gathered(uint64_t bytes) {
    return ((bytes & 0x0101010101010101ull) * 0x0102040810204080ull) >> 56;
}

void pack_bits(const uint8_t *in, size_t n, uint8_t *out) {
    for (size_t i = 0; i < n / 8; i++) {
        uint64_t eight;
        memcpy(&eight, in + 8 * i, 8);
        out[i] = gathered(eight);
    }
    if (n % 8) out[n / 8] = 0;
    for (size_t i = n / 8 * 8; i < n; i++) out[n / 8] |= (in[i] & 1) << (i % 8);
}

void unpack_bits(const uint8_t *in, size_t n, uint8_t *out) {
    for (size_t i = 0; i < n / 8; i++) {
        uint64_t eight = spread(in[i]);
        memcpy(out + 8 * i, &eight, 8);
    }
    for (size_t i = n / 8 * 8; i < n; i++) out[i] = in[i / 8] >> (i % 8) & 1;
}

void pack_nibbles(const uint8_t *in, size_t n, uint8_t *out) {
    for (size_t i = 0; i < n / 2; i++) out[i] = (in[2 * i] & 15) | in[2 * i + 1] << 4;
    if (n % 2) out[n / 2] = in[n - 1] & 15;
}

void unpack_nibbles(const uint8_t *in, size_t n, uint8_t *out) {
    for (size_t i = 0; i < n / 2; i++) {
        out[2 * i] = in[i] & 15;
        out[2 * i + 1] = in[i] >> 4;
    }
    if (n % 2) out[n - 1] = in[n / 2] & 15;
}

void pack_int16(const uint8_t *in8, size_t n, int first, int count, uint8_t *out) {
    const uint16_t *in = (const void *)in8;
    uint64_t held = 0, mask = (1u << count) - 1;
    int bits = 0;
    for (size_t i = 0; i < n; i++) {
        held |= (in[i] >> first & mask) << bits;
        bits += count;
        if (bits >= 32) {
            uint32_t low = held;
            memcpy(out, &low, 4);
            out += 4;
            held >>= 32;
            bits -= 32;
        }
    }
    for (; bits > 0; bits -= 8, held >>= 8) *out++ = held;
}

/* The number of `count` bits that begins at a bit of these eight bytes, with its sign, moved to bit `first`. */
static inline int16_t int16_at(uint64_t eight, size_t bit, int first, int count) {
    return (int16_t)(((int64_t)(eight >> bit % 8 << (64 - count)) >> (64 - count)) * (1 << first));
}

void unpack_int16(const uint8_t *in, size_t in_len, size_t n, int first, int count, uint8_t *out8) {
    int16_t *out = (void *)out8;
    size_t i = 0, bit = 0;
    for (; i < n && bit / 8 + 8 <= in_len; i++, bit += count) {
        uint64_t eight;
        memcpy(&eight, in + bit / 8, 8);
        out[i] = int16_at(eight, bit, first, count);
    }
    for (; i < n; i++, bit += count) {
        uint64_t eight = 0;
        memcpy(&eight, in + bit / 8, in_len - bit / 8);
        out[i] = int16_at(eight, bit, first, count);
    }
}

static inline uint64_t number_at(const uint8_t *numbers, size_t i) {
    uint64_t number;
    memcpy(&number, numbers + 8 * i, 8);
    return number;
}

/* Whether offsets begin at 0, never fall and end at `end`. */
static bool rise_to(const uint8_t *offsets, size_t n, uint64_t end) {
    bool falls = false;
    for (size_t i = 0; i < n; i++) falls |= number_at(offsets, i) > number_at(offsets, i + 1);
    return !falls && number_at(offsets, 0) == 0 && number_at(offsets, n) == end;
}

/* Whether a value of texts has room for its offsets. */
static bool has_offsets(const uint8_t *value, size_t len, size_t n) {
    return len >= 8 && number_at(value, 0) == 8 * (n + 1) && len - 8 >= 8 * (n + 1);
}

static uint32_t crc_rows[8][256];

static void fill_crc_rows(void) {
    for (uint32_t byte = 0; byte < 256; byte++) {
        uint32_t rest = byte;
        for (int row = 0; row < 8; row++) {
            for (int bit = 0; bit < 8; bit++) rest = rest >> 1 ^ (rest & 1 ? 0x82f63b78 : 0);
            crc_rows[row][byte] = rest;
        }
    }
}

static uint32_t crc32c(const uint8_t *in, size_t n) {
    const uint32_t(*rows)[256] = crc_rows;
    uint32_t crc = ~0u;
    if (!rows[0][1]) fill_crc_rows();
    for (; n >= 8; in += 8, n -= 8) {
        uint64_t eight;
        memcpy(&eight, in, 8);
        eight ^= crc;
        crc = rows[7][eight & 255] ^ rows[6][eight >> 8 & 255] ^ rows[5][eight >> 16 & 255] ^
              rows[4][eight >> 24 & 255] ^ rows[3][eight >> 32 & 255] ^ rows[2][eight >> 40 & 255] ^
              rows[1][eight >> 48 & 255] ^ rows[0][eight >> 56];
    }
    while (n--) crc = crc >> 8 ^ rows[0][(crc ^ *in++) & 255];
    return ~crc;
}

void checksum_encode(const uint8_t *in, size_t n, uint8_t *value) {
    uint32_t crc = crc32c(in, n);
    memcpy(value, in, n);
    memcpy(value + n, &crc, 4);
}

bool checksum_decode(const uint8_t *value, size_t len, uint8_t *out) {
    uint32_t crc;
    if (len < 4) return false;
    memcpy(&crc, value + len - 4, 4);
    if (crc != crc32c(value, len - 4)) return false;
    memcpy(out, value, len - 4);
    return true;
}

bool texts_encode(const uint8_t *bytes, const uint64_t *offsets, size_t n, uint8_t *value) {
    uint64_t taken = 8 * (n + 1);
    if (!rise_to((const void *)offsets, n, offsets[n])) return false;
    memcpy(value, &taken, 8);
    memcpy(value + 8, offsets, taken);
    memcpy(value + 8 + taken, bytes, offsets[n]);
    return true;
}

bool texts_decode(const uint8_t *value, size_t len, size_t n, uint64_t *offsets, uint8_t *bytes) {
    size_t taken = 8 * (n + 1);
    if (!has_offsets(value, len, n) || !rise_to(value + 8, n, len - 8 - taken)) return false;
    memcpy(offsets, value + 8, taken);
    memcpy(bytes, value + 8 + taken, len - 8 - taken);
    return true;
}

bool texts_read(const uint8_t *value, size_t len, size_t n, bool checks, size_t at, size_t count,
                uint64_t *offsets, uint8_t *bytes) {
    if (!has_offsets(value, len, n)) return false;
    size_t end = len - 8 - 8 * (n + 1);
    if (checks && !rise_to(value + 8, n, end)) return false;
    uint64_t from = number_at(value + 8, at);
    for (size_t i = 0; i <= count; i++) {
        uint64_t here = number_at(value + 8, at + i);
        if (here < from || here > end) return false;
        offsets[i] = here - from;
    }
    memcpy(bytes, value + len - end + from, offsets[count]);
    return true;
}

/* Texts between offsets that rise; they answer where the value ends. */
static uint8_t *prefixed_part(const uint8_t *bytes, const uint64_t *offsets, size_t n, uint8_t *value) {
    uint32_t count = n;
    if (count != n) return NULL;
    memcpy(value, &count, 4);
    value += 4;
    for (size_t i = 0; i < n; i++) {
        uint64_t size = offsets[i + 1] - offsets[i];
        uint32_t length = size;
        if (length != size) return NULL;
        memcpy(value, &length, 4);
        memcpy(value + 4, bytes + offsets[i], size);
        value += 4 + size;
    }
    return value;
}

bool prefixed_encode(const uint8_t *bytes, const uint64_t *offsets, size_t n, uint8_t *value) {
    return rise_to((const void *)offsets, n, offsets[n]) && prefixed_part(bytes, offsets, n, value);
}

/* From the first offset on. */
static bool unprefixed_part(const uint8_t *value, size_t len, size_t n, uint64_t *offsets, uint8_t *bytes) {
    uint32_t number;
    if (len < 4) return false;
    memcpy(&number, value, 4);
    if (number != n) return false;
    size_t at = 4;
    for (size_t i = 0; i < n; i++) {
        if (len - at < 4) return false;
        memcpy(&number, value + at, 4);
        at += 4;
        if (len - at < number) return false;
        memcpy(bytes + offsets[i], value + at, number);
        offsets[i + 1] = offsets[i] + number;
        at += number;
    }
    return at == len;
}

bool prefixed_decode(const uint8_t *value, size_t len, size_t n, uint64_t *offsets, uint8_t *bytes) {
    offsets[0] = 0;
    return unprefixed_part(value, len, n, offsets, bytes);
}

bool shard_texts_encode(const uint8_t *bytes, const uint64_t *offsets, size_t n, size_t part, uint8_t *value) {
    size_t count = n / part, at = 0;
    uint64_t index[2 * count];
    if (!rise_to((const void *)offsets, n, offsets[n])) return false;
    for (size_t i = 0; i < count; i++) {
        uint8_t *end = prefixed_part(bytes, offsets + i * part, part, value + at);
        if (!end) return false;
        index[2 * i] = at;
        index[2 * i + 1] = end - value - at;
        at = end - value;
    }
    memcpy(value + at, index, sizeof index);
    return true;
}

bool shard_texts_decode(const uint8_t *value, size_t len, size_t n, size_t part, uint64_t *offsets, uint8_t *bytes) {
    size_t count = n / part;
    if (len < 16 * count) return false;
    const uint8_t *index = value + len - 16 * count;
    offsets[0] = 0;
    for (size_t i = 0; i < count; i++) {
        uint64_t at = number_at(index, 2 * i), size = number_at(index, 2 * i + 1);
        if (size > len || at > len - size) return false;
        if (!unprefixed_part(value + at, size, part, offsets + i * part, bytes)) return false;
    }
    return true;
}

size_t optional_encode(const uint8_t *bytes, const uint8_t *mask, size_t n, uint8_t *value) {
    size_t packed = (n + 7) / 8;
    uint8_t *data = value + 16 + packed, all = 0;
    for (size_t i = 0; i < n; i++) all |= mask[i];
    if (all > 1) return 0;
    pack_bits(mask, n, value + 16);
    for (size_t i = 0; i < n; i++) {
        memcpy(data, bytes + 4 * i, 4);
        data += 4 * mask[i];
    }
    uint64_t lengths[2] = {packed, data - value - 16 - packed};
    memcpy(value, lengths, 16);
    return data - value;
}

bool optional_decode(const uint8_t *value, size_t len, size_t n, uint8_t *mask, uint8_t *bytes) {
    size_t packed = (n + 7) / 8, present = 0;
    if (len < 16 || number_at(value, 0) != packed || len - 16 < packed) return false;
    if (number_at(value, 1) != len - 16 - packed) return false;
    unpack_bits(value + 16, n, mask);
    for (size_t i = 0; i < n; i++) present += mask[i];
    if (4 * present != len - 16 - packed) return false;
    const uint8_t *data = value + 16 + packed, *end = value + len;
    size_t i = 0;
    for (; i < n && data < end; i++) {
        uint32_t element;
        memcpy(&element, data, 4);
        element &= -(uint32_t)mask[i];
        memcpy(bytes + 4 * i, &element, 4);
        data += 4 * mask[i];
    }
    memset(bytes + 4 * i, 0, 4 * (n - i));
    return true;
}

/* Whether rows of so many bytes are zeros, each so far behind the one before. */
static bool is_zero(const uint8_t *in, size_t rows, size_t row, size_t stride) {
    uint8_t found = 0;
    for (size_t y = 0; y < rows && !found; y++, in += stride)
        for (size_t i = 0; i < row; i++) found |= in[i];
    return !found;
}

size_t shard_encode(const uint8_t *in, size_t side, size_t part, uint8_t *value) {
    size_t grid = side / part, row = 4 * part, stride = 4 * side, at = 0;
    uint64_t index[2 * grid * grid], *entry = index;
    for (size_t top = 0; top < grid; top++)
        for (size_t left = 0; left < grid; left++, entry += 2) {
            const uint8_t *from = in + top * part * stride + left * row;
            entry[0] = entry[1] = UINT64_MAX;
            if (is_zero(from, part, row, stride)) continue;
            entry[0] = at;
            entry[1] = part * row;
            for (size_t y = 0; y < part; y++, at += row) memcpy(value + at, from + y * stride, row);
        }
    memcpy(value + at, index, sizeof index);
    return at + sizeof index;
}

bool shard_decode(const uint8_t *value, size_t len, size_t side, size_t part, uint8_t *out) {
    size_t grid = side / part, row = 4 * part, stride = 4 * side, count = grid * grid;
    if (len < 16 * count) return false;
    const uint8_t *index = value + len - 16 * count;
    for (size_t i = 0; i < count; i++) {
        uint64_t at = number_at(index, 2 * i), size = number_at(index, 2 * i + 1);
        uint8_t *to = out + i / grid * part * stride + i % grid * row;
        bool is_missing = at == UINT64_MAX && size == UINT64_MAX;
        if (!is_missing && (size > len || at > len - size || size != part * row)) return false;
        for (size_t y = 0; y < part; y++, to += stride)
            if (is_missing) memset(to, 0, row);
            else memcpy(to, value + at + y * row, row);
    }
    return true;
}

void window_bits(const uint8_t *in, size_t in_len, size_t columns, struct window at, uint8_t *out) {
    for (size_t y = 0; y < at.height; y++, out += at.width) {
        size_t bit = (at.y + y) * columns + at.x, x = 0;
        for (; x + 8 <= at.width && (bit + x) / 8 + 2 <= in_len; x += 8) {
            uint16_t two;
            memcpy(&two, in + (bit + x) / 8, 2);
            uint64_t eight = spread(two >> (bit + x) % 8);
            memcpy(out + x, &eight, 8);
        }
        for (; x < at.width; x++) out[x] = in[(bit + x) / 8] >> (bit + x) % 8 & 1;
    }
}

void window_nibbles(const uint8_t *in, size_t columns, struct window at, uint8_t *out) {
    for (size_t y = 0; y < at.height; y++, out += at.width) {
        size_t place = (at.y + y) * columns + at.x, odd = place % 2 && at.width;
        if (odd) out[0] = in[place / 2] >> 4;
        unpack_nibbles(in + (place + odd) / 2, at.width - odd, out + odd);
    }
}

void window_rows(const uint8_t *in, size_t columns, struct window at, uint8_t *out) {
    size_t row = 4 * at.width;
    for (size_t y = 0; y < at.height; y++) memcpy(out + y * row, in + 4 * ((at.y + y) * columns + at.x), row);
}

void write_rows(uint8_t *value, size_t columns, struct window at, const uint8_t *new) {
    size_t row = 4 * at.width;
    for (size_t y = 0; y < at.height; y++) memcpy(value + 4 * ((at.y + y) * columns + at.x), new + y * row, row);
}

/* Into rows that stand so many elements apart. */
static void turn_window(const uint8_t *in8, size_t rows, struct window at, uint8_t *out8, size_t stride) {
    const uint32_t *in = (const void *)in8;
    uint32_t *out = (void *)out8;
    for (size_t top = 0; top < at.height; top += TILE)
        for (size_t left = 0; left < at.width; left += TILE)
            for (size_t y = top; y < top + TILE && y < at.height; y++)
                for (size_t x = left; x < left + TILE && x < at.width; x++)
                    out[y * stride + x] = __builtin_bswap32(in[(at.x + x) * rows + at.y + y]);
}

void window_turned(const uint8_t *in, size_t rows, struct window at, uint8_t *out) {
    turn_window(in, rows, at, out, at.width);
}

void shard_turned(const uint8_t *in, size_t side, size_t part, uint8_t *value) {
    size_t grid = side / part, len = 4 * part * part;
    uint64_t *index = (void *)(value + 4 * side * side);
    for (size_t i = 0; i < grid * grid; i++) {
        struct window at = {i / grid * part, i % grid * part, part, part};
        for (size_t x = 0; x < part; x++)
            for (size_t y = 0; y < part; y++) {
                uint32_t element;
                memcpy(&element, in + 4 * ((at.y + y) * side + at.x + x), 4);
                element = __builtin_bswap32(element);
                memcpy(value + i * len + 4 * (x * part + y), &element, 4);
            }
        index[2 * i] = i * len;
        index[2 * i + 1] = len;
    }
}

bool shard_window(const uint8_t *value, size_t len, size_t side, size_t part, struct window at, uint8_t *out) {
    size_t grid = side / part, count = grid * grid, bottom = at.y + at.height, right = at.x + at.width;
    if (len < 16 * count) return false;
    const uint8_t *index = value + len - 16 * count;
    for (size_t top = at.y / part * part; top < bottom; top += part)
        for (size_t left = at.x / part * part; left < right; left += part) {
            size_t i = top / part * grid + left / part, y = top < at.y ? at.y : top, x = left < at.x ? at.x : left;
            size_t height = (top + part < bottom ? top + part : bottom) - y;
            size_t width = (left + part < right ? left + part : right) - x;
            uint64_t from = number_at(index, 2 * i), size = number_at(index, 2 * i + 1);
            uint8_t *to = out + 4 * ((y - at.y) * at.width + x - at.x);
            bool is_missing = from == UINT64_MAX && size == UINT64_MAX;
            if (!is_missing && (size > len || from > len - size || size != 4 * part * part)) return false;
            if (is_missing)
                for (size_t row = 0; row < height; row++) memset(to + 4 * row * at.width, 0, 4 * width);
            else turn_window(value + from, part, (struct window){y - top, x - left, height, width}, to, at.width);
        }
    return true;
}

void write_turned(uint8_t *value8, size_t rows, struct window at, const uint8_t *new8) {
    const uint32_t *new = (const void *)new8;
    uint32_t *value = (void *)value8;
    for (size_t top = 0; top < at.height; top += TILE)
        for (size_t left = 0; left < at.width; left += TILE)
            for (size_t x = left; x < left + TILE && x < at.width; x++)
                for (size_t y = top; y < top + TILE && y < at.height; y++)
                    value[(at.x + x) * rows + at.y + y] = __builtin_bswap32(new[y * at.width + x]);
}

void plan_turned(size_t rows, struct window at, uint64_t *ranges) {
    for (size_t x = 0; x < at.width; x++) {
        ranges[2 * x] = 4 * ((at.x + x) * rows + at.y);
        ranges[2 * x + 1] = ranges[2 * x] + 4 * at.height;
    }
}

bool pick_rows(const uint8_t *in, size_t rows, size_t columns, const uint64_t *pairs, size_t n, uint8_t *out) {
    for (size_t i = 0; i < n; i++) {
        uint64_t y = pairs[2 * i], x = pairs[2 * i + 1];
        if (y >= rows || x >= columns) return false;
        memcpy(out + 4 * i, in + 4 * (y * columns + x), 4);
    }
    return true;
}

bool pick_turned(const uint8_t *in8, size_t rows, size_t columns, const uint64_t *pairs, size_t n, uint8_t *out8) {
    const uint32_t *in = (const void *)in8;
    uint32_t *out = (void *)out8;
    for (size_t i = 0; i < n; i++) {
        uint64_t y = pairs[2 * i], x = pairs[2 * i + 1];
        if (y >= rows || x >= columns) return false;
        out[i] = __builtin_bswap32(in[x * rows + y]);
    }
    return true;
}
