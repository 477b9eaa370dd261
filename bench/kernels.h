/* What a C programmer would write for the same calls, each for one case, into buffers of the caller's. A kernel
 * that may refuse, as the library does, answers whether it did its work. */
#include <stdbool.h>
#include <stddef.h>
#include <stdint.h>

/* Rows and columns change places, and the bytes of each element where `swaps`. */
void transpose_u32(const uint8_t *in, size_t rows, size_t columns, bool swaps, uint8_t *out);
void transpose_u8(const uint8_t *in, size_t rows, size_t columns, uint8_t *out);
/* [a][b][run] to [b][a][run], a run of so many bytes. */
void swap_runs(const uint8_t *in, size_t a, size_t b, size_t run, uint8_t *out);
/* A cube with its axes the other way round. */
void reverse_cube_u32(const uint8_t *in, size_t side, uint8_t *out);

/* One bit an element, four bits, and `count` bits from bit `first`. */
void pack_bits(const uint8_t *in, size_t n, uint8_t *out);
void unpack_bits(const uint8_t *in, size_t n, uint8_t *out);
void pack_nibbles(const uint8_t *in, size_t n, uint8_t *out);
void unpack_nibbles(const uint8_t *in, size_t n, uint8_t *out);
void pack_int16(const uint8_t *in, size_t n, int first, int count, uint8_t *out);
void unpack_int16(const uint8_t *in, size_t in_len, size_t n, int first, int count, uint8_t *out);

/* Bytes and their CRC-32C behind them, eight bytes a step; back, where it is theirs. */
void checksum_encode(const uint8_t *in, size_t n, uint8_t *value);
bool checksum_decode(const uint8_t *value, size_t len, uint8_t *out);

/* Texts behind their offsets: the bytes that the offsets take, the offsets, the texts' bytes. */
bool texts_encode(const uint8_t *bytes, const uint64_t *offsets, size_t n, uint8_t *value);
bool texts_decode(const uint8_t *value, size_t len, size_t n, uint64_t *offsets, uint8_t *bytes);
/* Texts `at` to `at + count`, of a value whose offsets are all checked first where `checks`. */
bool texts_read(const uint8_t *value, size_t len, size_t n, bool checks, size_t at, size_t count,
                uint64_t *offsets, uint8_t *bytes);

/* Texts each behind its length, behind how many they are, in 4 bytes each. */
bool prefixed_encode(const uint8_t *bytes, const uint64_t *offsets, size_t n, uint8_t *value);
bool prefixed_decode(const uint8_t *value, size_t len, size_t n, uint64_t *offsets, uint8_t *bytes);

/* Elements that may be absent: two lengths, the packed mask, the elements that are present. They answer how many
 * bytes the value has, and whether it is one. */
size_t optional_encode(const uint8_t *bytes, const uint8_t *mask, size_t n, uint8_t *value);
bool optional_decode(const uint8_t *value, size_t len, size_t n, uint8_t *mask, uint8_t *bytes);

/* Squares of u32 in inner squares, row by row, without those of zeros; behind them where each begins and how many bytes
 * it has. They answer how many bytes the value has, and whether it is one. */
size_t shard_encode(const uint8_t *in, size_t side, size_t part, uint8_t *value);
bool shard_decode(const uint8_t *value, size_t len, size_t side, size_t part, uint8_t *out);
/* The same of texts each behind its length, so many in an inner chunk, of which none is left out. */
bool shard_texts_encode(const uint8_t *bytes, const uint64_t *offsets, size_t n, size_t part, uint8_t *value);
bool shard_texts_decode(const uint8_t *value, size_t len, size_t n, size_t part, uint64_t *offsets, uint8_t *bytes);

/* A window at row y and column x of a chunk. */
struct window {
    size_t y, x, height, width;
};
void window_bits(const uint8_t *in, size_t in_len, size_t columns, struct window at, uint8_t *out);
void window_nibbles(const uint8_t *in, size_t columns, struct window at, uint8_t *out);
void window_rows(const uint8_t *in, size_t columns, struct window at, uint8_t *out);
void write_rows(uint8_t *value, size_t columns, struct window at, const uint8_t *new);
/* The same of a chunk that is stored by columns, each of so many rows, the highest byte of an element first. */
void window_turned(const uint8_t *in, size_t rows, struct window at, uint8_t *out);
/* A shard of such inner squares, all of them there, behind which the index stands; and a window of it, by the index and by
 * the inner squares that it meets. */
void shard_turned(const uint8_t *in, size_t side, size_t part, uint8_t *value);
bool shard_window(const uint8_t *value, size_t len, size_t side, size_t part, struct window at, uint8_t *out);
void write_turned(uint8_t *value, size_t rows, struct window at, const uint8_t *new);
void plan_turned(size_t rows, struct window at, uint64_t *ranges);

/* The elements at these pairs of row and column, of a chunk that is stored by rows or by columns. */
bool pick_rows(const uint8_t *in, size_t rows, size_t columns, const uint64_t *pairs, size_t n, uint8_t *out);
bool pick_turned(const uint8_t *in, size_t rows, size_t columns, const uint64_t *pairs, size_t n, uint8_t *out);
