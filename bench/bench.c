/* bench [-s SECONDS] [WORD ..]: times the library's calls beside the kernels of kernels.c, in one process and in turn,
 * for each workload whose name begins with a word, or for all. A line for each: its name, the least processor time
 * of one call in ns, ours with the header's text, ours over a chain that is kept, and C's, and how many bytes the first
 * had allocated at most, in units of the answer's.
 *
 * The answers are compared first. The status is 1 where one differs or is refused.
 */
#include "kernels.h"
#include "../include/zarrs_codecs.h"
#include <malloc.h>
#include <stdio.h>
#include <stdlib.h>
#include <string.h>
#include <time.h>

/* ---- memory: what is allocated while `counts`, by the process's malloc, which is this one ---- */

void *__libc_malloc(size_t len);
void *__libc_realloc(void *block, size_t len);
void __libc_free(void *block);

static bool counts;
static size_t held, peak;

static void *taken(void *block) {
    if (counts && block) held += malloc_usable_size(block);
    if (counts && held > peak) peak = held;
    return block;
}

void *malloc(size_t len) { return taken(__libc_malloc(len)); }

void free(void *block) {
    if (counts && block) held -= malloc_usable_size(block);
    __libc_free(block);
}

/* Where the block moves, the old one and the new one stand side by side. */
void *realloc(void *block, size_t len) {
    size_t before = counts && block ? malloc_usable_size(block) : 0;
    void *moved = __libc_realloc(block, len);
    if (moved == block) held -= before;
    taken(moved);
    if (moved && moved != block) held -= before;
    return moved;
}

/* ---- the workload at hand ---- */

enum call { ENCODE, DECODE, READ, READS, WRITE, EDITS, REENCODE, PLAN, READ_PIECES };

/* Elements as they cross, or a value in `bytes` alone. */
struct buffers {
    uint8_t *masks;
    uint64_t *offsets;
    uint8_t *bytes;
    zarrs_sizes len;
};

static struct {
    const char *name;
    enum call call;
    char header[500];
    const char *other_codecs;
    struct buffers in, new; /* what is encoded, decoded or read, and what is written */
    uint64_t tuples;        /* the selection; of edits one behind another */
    uint64_t *numbers;
    size_t numbers_len;
    zarrs_edit_size *edits;
    zarrs_selection_size *selections;
    struct buffers ours, plain; /* the answers */
    zarrs_chain chain;
    zarrs_sizes room;
    size_t rows, columns; /* of C's kernels, from here on */
    struct window at;
    bool checks;
} job;

static void *rooms[32];
static size_t rooms_len;

/* Memory of this workload, all of it touched. What a kernel writes past its answer fits too. */
static void *room(size_t len) {
    void *block = malloc(len + 16);
    if (!block) exit(2);
    memset(block, 0, len + 16);
    return rooms[rooms_len++] = block;
}

/* Begun anew by each workload, so that its bytes are the same in each run. */
static uint64_t seed;

static uint64_t noise_number(void) {
    seed ^= seed << 13;
    seed ^= seed >> 7;
    return seed ^= seed << 17;
}

static uint8_t *noise(size_t len) {
    uint64_t *numbers = room(len + 8);
    for (size_t i = 0; i < len / 8 + 1; i++) numbers[i] = noise_number();
    return (uint8_t *)numbers;
}

static uint8_t *noise_below(size_t len, uint8_t bound) {
    uint8_t *bytes = noise(len);
    for (size_t i = 0; i < len; i++) bytes[i] %= bound;
    return bytes;
}

static void answers(size_t masks, size_t offsets, size_t bytes) {
    job.room = (zarrs_sizes){masks, offsets, bytes};
    job.ours = (struct buffers){room(masks), room(8 * offsets), room(bytes), {0, 0, 0}};
    job.plain = (struct buffers){room(masks), room(8 * offsets), room(bytes), job.room};
}

#define HEADER (const uint8_t *)job.header, strlen(job.header)
#define VALUE job.in.bytes, job.in.len.bytes
#define ELEMENTS(of) of.masks, of.len.masks, of.offsets, of.len.offsets, of.bytes, of.len.bytes
#define SELECTION job.tuples, job.numbers, job.numbers_len
#define ANSWER job.ours.bytes, job.room.bytes, &job.ours.len.bytes
#define ANSWERS                                                                                                    \
    job.ours.masks, job.room.masks, job.ours.offsets, job.room.offsets, job.ours.bytes, job.room.bytes, &job.ours.len

/* A call over the chain that is kept, or with the header's text. */
#define CALL(name, ...) (is_kept ? zarrs_chain_##name(&job.chain, __VA_ARGS__) : zarrs_##name(HEADER, __VA_ARGS__))

/* All edits by one call, in a copy of the value, as C makes them. */
static uint32_t edit_in_place(bool is_kept) {
    size_t done;
    memcpy(job.ours.bytes, VALUE);
    job.ours.len.bytes = job.in.len.bytes;
    return CALL(edit, job.ours.bytes, job.in.len.bytes, job.edits, job.numbers_len / 4, job.numbers, job.numbers_len,
                job.new.bytes, job.new.len.bytes, &done);
}

static inline uint32_t call_of(bool is_kept) {
    bool is_planned;
    switch (job.call) {
    case ENCODE: return CALL(encode, ELEMENTS(job.in), ANSWER);
    case DECODE: return CALL(decode, VALUE, ANSWERS);
    case READ: return CALL(read, true, VALUE, SELECTION, ANSWERS);
    case WRITE: return CALL(write, true, VALUE, SELECTION, ELEMENTS(job.new), ANSWER);
    case EDITS: return edit_in_place(is_kept);
    case READS:
        return CALL(read_many, true, VALUE, job.selections, job.numbers_len / 4, job.numbers, job.numbers_len, ANSWERS);
    case REENCODE: return CALL(reencode, VALUE, (const uint8_t *)job.other_codecs, strlen(job.other_codecs), ANSWER);
    case PLAN:
        return CALL(planned_ranges, SELECTION, job.ours.offsets, job.room.offsets, &is_planned, &job.ours.len.offsets);
    case READ_PIECES:
        return CALL(read_pieces, 4 * job.rows * job.columns, job.in.offsets, job.in.len.offsets, VALUE, SELECTION,
                    ANSWERS);
    }
    return 1;
}

static uint32_t call_ours(void) { return call_of(false); }
static uint32_t call_kept(void) { return call_of(true); }

/* ---- measuring ---- */

static double seconds = 0.5;
static char **words;
static int words_len;
static int status;

static uint64_t processor_time(void) {
    struct timespec time;
    clock_gettime(CLOCK_PROCESS_CPUTIME_ID, &time);
    return time.tv_sec * 1000000000ull + time.tv_nsec;
}

static double wall_time(void) {
    struct timespec time;
    clock_gettime(CLOCK_MONOTONIC, &time);
    return time.tv_sec + time.tv_nsec / 1e9;
}

static bool same(void) {
    struct buffers *a = &job.ours, *b = &job.plain;
    return !memcmp(&a->len, &b->len, sizeof a->len) && !memcmp(a->masks, b->masks, a->len.masks) &&
           !memcmp(a->offsets, b->offsets, 8 * a->len.offsets) && !memcmp(a->bytes, b->bytes, a->len.bytes);
}

/* All are the same kind of function: the code of ours, and of C's whether it was refused. */
static bool (*kernel)(void);
static uint32_t call_plain(void) { return !kernel(); }

static void must(uint32_t code) {
    if (!code) return;
    fprintf(stderr, "%s: refused where it wasn't before\n", job.name);
    exit(2);
}

/* The time of one call, of so many in turn, after one that brings its buffers near. */
static double timed(uint32_t (*call)(void), size_t calls) {
    must(call());
    uint64_t from = processor_time();
    for (size_t i = 0; i < calls; i++) must(call());
    return (double)(processor_time() - from) / calls;
}

/* How many calls take so long that the clock's own time is nothing beside them. */
static size_t calls_of(uint32_t (*call)(void)) {
    size_t calls = 1;
    while (timed(call, calls) * calls < 100000) calls *= 2;
    return calls;
}

static void measure(bool (*plain)(void)) {
    kernel = plain;
    held = peak = 0;
    counts = true;
    uint32_t code = call_ours();
    counts = false;
    uint32_t refused = call_plain();
    bool agrees = same();
    if (!code) code = zarrs_chain_new(HEADER, &job.chain);
    if (!code) {
        memset(job.ours.masks, 1, job.room.masks);
        memset(job.ours.offsets, 1, 8 * job.room.offsets);
        memset(job.ours.bytes, 1, job.room.bytes);
        code = call_kept();
        agrees &= same();
    }
    if (code || refused || !agrees) {
        fprintf(stderr, "%s: ours answers %u, C %u, and the answers %s\n", job.name, code, refused,
                agrees ? "agree" : "differ");
        status = 1;
    } else {
        uint32_t (*calls[])(void) = {call_ours, call_kept, call_plain};
        size_t counts_of[3];
        double least[] = {1e18, 1e18, 1e18};
        for (int i = 0; i < 3; i++) counts_of[i] = calls_of(calls[i]);
        double end = wall_time() + seconds;
        for (size_t rounds = 0; rounds < 5 || wall_time() < end; rounds++)
            for (int i = 0; i < 3; i++) {
                double time = timed(calls[i], counts_of[i]);
                if (time < least[i]) least[i] = time;
            }
        size_t answer = job.ours.len.masks + 8 * job.ours.len.offsets + job.ours.len.bytes;
        printf("%s\t%.1f\t%.1f\t%.1f\t%.2f\n", job.name, least[0], least[1], least[2], (double)peak / answer);
        fflush(stdout);
    }
    zarrs_chain_free(&job.chain);
    while (rooms_len) free(rooms[--rooms_len]);
}

/* What a kernel that refuses nothing does with the workload at hand. */
#define KERNEL(name, work) \
    static bool plain_##name(void) { return work, true; }

/* Begins a workload, where it is wanted. */
static bool begin(const char *name, enum call call, const char *shape, const char *type, const char *fill_value,
                  const char *codecs) {
    bool wanted = words_len == 0;
    for (int i = 0; i < words_len; i++) wanted |= !strncmp(name, words[i], strlen(words[i]));
    memset(&job, 0, sizeof job);
    seed = 88172645463325252ull;
    job.name = name;
    job.call = call;
    snprintf(job.header, sizeof job.header, "{\"shape\":%s,\"data_type\":%s,\"fill_value\":\"%s\",\"codecs\":[%s]}",
             shape, type, fill_value, codecs);
    return wanted;
}

#define LITTLE "{\"name\":\"bytes\",\"configuration\":{\"endian\":\"little\"}}"
#define BIG "{\"name\":\"bytes\",\"configuration\":{\"endian\":\"big\"}}"
#define TRANSPOSE(order) "{\"name\":\"transpose\",\"configuration\":{\"order\":" order "}}"
#define PACKBITS(more) "{\"name\":\"packbits\",\"configuration\":{\"padding_encoding\":\"none\"" more "}}"
#define TURNED TRANSPOSE("[1,0]") "," BIG

static uint8_t *noise_in(size_t len) {
    job.in.len.bytes = len;
    return job.in.bytes = noise(len);
}

static void select_window(struct window at) {
    job.at = at;
    job.tuples = ZARRS_BOX;
    job.numbers_len = 4;
    job.numbers = room(32);
    memcpy(job.numbers, (uint64_t[]){at.y, at.x, at.height, at.width}, 32);
}

/* ---- transpose: there and back take the same work ---- */

KERNEL(transpose_u32, transpose_u32(job.in.bytes, job.rows, job.columns, false, job.plain.bytes))
KERNEL(transpose_u8, transpose_u8(job.in.bytes, job.rows, job.columns, job.plain.bytes))
KERNEL(swap_runs, swap_runs(job.in.bytes, 64, 64, 4096, job.plain.bytes))
KERNEL(reverse_cube, reverse_cube_u32(job.in.bytes, 128, job.plain.bytes))

static void transpose(const char *name, enum call call, const char *shape, const char *order, bool is_u8, size_t len,
                      bool (*plain)(void)) {
    char codecs[200];
    snprintf(codecs, sizeof codecs, TRANSPOSE("%s") "," LITTLE, order);
    if (!begin(name, call, shape, is_u8 ? "\"uint8\"" : "\"uint32\"", is_u8 ? "00" : "00000000", codecs)) return;
    job.rows = job.columns = 1024;
    noise_in(len);
    answers(0, 0, len);
    measure(plain);
}

static void transposes(void) {
    const char *flat = "[1024,1024]", *runs = "[64,64,64,16]", *cube = "[128,128,128]", *swap = "[1,0,2,3]";
    size_t mi = 1 << 20;
    transpose("transpose encode u32 1024x1024", ENCODE, flat, "[1,0]", false, 4 * mi, plain_transpose_u32);
    transpose("transpose decode u32 1024x1024", DECODE, flat, "[1,0]", false, 4 * mi, plain_transpose_u32);
    transpose("transpose encode u8 1024x1024", ENCODE, flat, "[1,0]", true, mi, plain_transpose_u8);
    transpose("transpose decode u8 1024x1024", DECODE, flat, "[1,0]", true, mi, plain_transpose_u8);
    transpose("transpose encode u32 64x64x64x16, [1,0,2,3]", ENCODE, runs, swap, false, 16 * mi, plain_swap_runs);
    transpose("transpose decode u32 64x64x64x16, [1,0,2,3]", DECODE, runs, swap, false, 16 * mi, plain_swap_runs);
    transpose("transpose encode u32 128x128x128, [2,1,0]", ENCODE, cube, "[2,1,0]", false, 8 * mi, plain_reverse_cube);
    transpose("transpose decode u32 128x128x128, [2,1,0]", DECODE, cube, "[2,1,0]", false, 8 * mi, plain_reverse_cube);
}

/* ---- packbits ---- */

static bool plain_bits(void) {
    if (job.call == ENCODE) pack_bits(job.in.bytes, job.rows, job.plain.bytes);
    else unpack_bits(job.in.bytes, job.rows, job.plain.bytes);
    return true;
}
static bool plain_nibbles(void) {
    if (job.call == ENCODE) pack_nibbles(job.in.bytes, job.rows, job.plain.bytes);
    else unpack_nibbles(job.in.bytes, job.rows, job.plain.bytes);
    return true;
}
static bool plain_int16(void) {
    if (job.call == ENCODE) pack_int16(job.in.bytes, job.rows, 2, 11, job.plain.bytes);
    else unpack_int16(job.in.bytes, job.in.len.bytes, job.rows, 2, 11, job.plain.bytes);
    return true;
}
KERNEL(window_bits, window_bits(job.in.bytes, job.in.len.bytes, 4096, job.at, job.plain.bytes))
KERNEL(window_nibbles, window_nibbles(job.in.bytes, 4096, job.at, job.plain.bytes))

/* All of a row of elements: `bits` of each element's `width` are kept. */
static void pack(const char *name, enum call call, const char *type, size_t n, size_t width, size_t bits,
                 bool (*plain)(void)) {
    char shape[32];
    size_t value = (n * bits + 7) / 8;
    snprintf(shape, sizeof shape, "[%zu]", n);
    if (!begin(name, call, shape, type, width == 1 ? "00" : "0000",
               width == 1 ? PACKBITS("") : PACKBITS(",\"first_bit\":2,\"last_bit\":12")))
        return;
    job.rows = n;
    job.in.len.bytes = call == ENCODE ? n * width : value;
    job.in.bytes = call == ENCODE && width == 1 ? noise_below(n, 1 << bits) : noise(job.in.len.bytes);
    answers(0, 0, call == ENCODE ? value : n * width);
    measure(plain);
}

static void pack_window(const char *name, const char *type, size_t value, size_t x, bool (*plain)(void)) {
    if (!begin(name, READ, "[4096,4096]", type, "00", PACKBITS(""))) return;
    noise_in(value);
    select_window((struct window){1000, x, 512, 512});
    answers(0, 0, 512 * 512);
    measure(plain);
}

static void packs(void) {
    size_t mi = 1 << 20;
    pack("packbits encode bool 16 Mi", ENCODE, "\"bool\"", 16 * mi, 1, 1, plain_bits);
    pack("packbits decode bool 16 Mi", DECODE, "\"bool\"", 16 * mi, 1, 1, plain_bits);
    pack("packbits encode uint4 16 Mi", ENCODE, "\"uint4\"", 16 * mi, 1, 4, plain_nibbles);
    pack("packbits decode uint4 16 Mi", DECODE, "\"uint4\"", 16 * mi, 1, 4, plain_nibbles);
    pack("packbits encode int16, bits 2 to 12, 4 Mi", ENCODE, "\"int16\"", 4 * mi, 2, 11, plain_int16);
    pack("packbits decode int16, bits 2 to 12, 4 Mi", DECODE, "\"int16\"", 4 * mi, 2, 11, plain_int16);
    pack_window("packbits read bool 512x512 at x=1003", "\"bool\"", 2 * mi, 1003, plain_window_bits);
    pack_window("packbits read bool 512x512 at x=1000", "\"bool\"", 2 * mi, 1000, plain_window_bits);
    pack_window("packbits read uint4 512x512 at x=1003", "\"uint4\"", 8 * mi, 1003, plain_window_nibbles);
    pack_window("packbits read uint4 512x512 at x=1000", "\"uint4\"", 8 * mi, 1000, plain_window_nibbles);
}

/* ---- crc32c behind bytes ---- */

static bool plain_checksum(void) {
    if (job.call == DECODE) return checksum_decode(job.in.bytes, job.in.len.bytes, job.plain.bytes);
    checksum_encode(job.in.bytes, job.in.len.bytes, job.plain.bytes);
    return true;
}

static void checksum(const char *name, enum call call, size_t n) {
    char shape[32];
    snprintf(shape, sizeof shape, "[%zu]", n);
    if (!begin(name, call, shape, "\"uint8\"", "00", LITTLE ",\"crc32c\"")) return;
    noise_in(n);
    if (call == DECODE) {
        uint8_t *value = room(n + 4);
        checksum_encode(job.in.bytes, n, value);
        job.in.bytes = value;
        job.in.len.bytes = n + 4;
    }
    answers(0, 0, call == ENCODE ? n + 4 : n);
    measure(plain_checksum);
}

static void checksums(void) {
    checksum("crc32c encode 16 MiB", ENCODE, 16 << 20);
    checksum("crc32c decode 16 MiB", DECODE, 16 << 20);
}

/* ---- texts: `rows` of them, and of a read `columns` from `at.x` ---- */

static bool plain_texts(void) {
    if (job.call == ENCODE) return texts_encode(job.in.bytes, job.in.offsets, job.rows, job.plain.bytes);
    if (job.call == DECODE)
        return texts_decode(job.in.bytes, job.in.len.bytes, job.rows, job.plain.offsets, job.plain.bytes);
    return texts_read(job.in.bytes, job.in.len.bytes, job.rows, job.checks, job.at.x, job.columns, job.plain.offsets,
                      job.plain.bytes);
}

static void texts(const char *name, enum call call, bool is_long, bool checks) {
    if (!begin(name, call, is_long ? "[100,10]" : "[200,1000]", "\"string\"", "",
               "{\"name\":\"zarrs.vlen\",\"configuration\":{\"index_codecs\":[" LITTLE "],\"data_codecs\":[\"bytes\"],"
               "\"index_data_type\":\"uint64\",\"index_location\":\"start\"}}"))
        return;
    size_t n = job.rows = is_long ? 1000 : 200000;
    job.columns = is_long ? 10 : 1000;
    job.at.x = is_long ? 70 : 77000;
    job.checks = checks;
    uint64_t *offsets = room(8 * (n + 1));
    for (size_t i = 0; i < n; i++) offsets[i + 1] = offsets[i] + (is_long ? 100000 : noise_number() % 25);
    uint8_t *bytes = noise_below(offsets[n], 26);
    for (size_t i = 0; i < offsets[n]; i++) bytes[i] += 'a';
    size_t value = 8 + 8 * (n + 1) + offsets[n];
    job.in = (struct buffers){NULL, offsets, bytes, {0, n + 1, offsets[n]}};
    if (call == ENCODE) answers(0, 0, value);
    else {
        job.in = (struct buffers){NULL, NULL, room(value), {0, 0, value}};
        texts_encode(bytes, offsets, n, job.in.bytes);
    }
    if (call == DECODE) answers(0, n + 1, offsets[n]);
    if (call == READ) {
        size_t from = job.at.x, count = job.columns;
        select_window((struct window){from / count, 0, 1, count});
        job.at.x = from;
        answers(0, count + 1, offsets[from + count] - offsets[from]);
    }
    measure(plain_texts);
}

static void all_texts(void) {
    texts("vlen encode 200,000 short texts", ENCODE, false, true);
    texts("vlen decode 200,000 short texts", DECODE, false, true);
    texts("vlen read 1,000 of 200,000 short texts", READ, false, true);
    texts("vlen read 1,000 of 200,000, C checks no others", READ, false, false);
    texts("vlen encode 1,000 texts of 100 kB", ENCODE, true, true);
    texts("vlen decode 1,000 texts of 100 kB", DECODE, true, true);
    texts("vlen read 10 of 1,000 texts of 100 kB", READ, true, true);
}

/* ---- texts each behind its length ---- */

static bool plain_prefixed(void) {
    if (job.call == ENCODE) return prefixed_encode(job.in.bytes, job.in.offsets, job.rows, job.plain.bytes);
    return prefixed_decode(job.in.bytes, job.in.len.bytes, job.rows, job.plain.offsets, job.plain.bytes);
}

static void prefixed(const char *name, enum call call, size_t rows, size_t most) {
    if (!begin(name, call, rows == 1000 ? "[1000]" : "[200000]", "\"string\"", "", "\"vlen-utf8\"")) return;
    job.rows = rows;
    uint64_t *offsets = room(8 * (rows + 1));
    for (size_t i = 0; i < rows; i++) offsets[i + 1] = offsets[i] + (rows == 1000 ? most : noise_number() % most);
    uint8_t *bytes = noise_below(offsets[rows], 26);
    size_t value = 4 * (rows + 1) + offsets[rows];
    job.in = (struct buffers){NULL, offsets, bytes, {0, rows + 1, offsets[rows]}};
    if (call == ENCODE) answers(0, 0, value);
    else {
        job.in = (struct buffers){NULL, NULL, room(value), {0, 0, value}};
        prefixed_encode(bytes, offsets, rows, job.in.bytes);
        answers(0, rows + 1, offsets[rows]);
    }
    measure(plain_prefixed);
}

static void all_prefixed(void) {
    prefixed("vlen-utf8 encode 200,000 short texts", ENCODE, 200000, 25);
    prefixed("vlen-utf8 decode 200,000 short texts", DECODE, 200000, 25);
    prefixed("vlen-utf8 encode 1,000 texts of 100 kB", ENCODE, 1000, 100000);
    prefixed("vlen-utf8 decode 1,000 texts of 100 kB", DECODE, 1000, 100000);
}

/* ---- elements that may be absent ---- */

static bool plain_optional(void) {
    if (job.call == DECODE)
        return optional_decode(job.in.bytes, job.in.len.bytes, job.rows, job.plain.masks, job.plain.bytes);
    job.plain.len.bytes = optional_encode(job.in.bytes, job.in.masks, job.rows, job.plain.bytes);
    return job.plain.len.bytes > 0;
}

static void optional(const char *name, enum call call, size_t run) {
    if (!begin(name, call, "[1048576]", "{\"optional\":\"uint32\"}", "00",
               "{\"name\":\"optional\",\"configuration\":{\"mask_codecs\":[\"packbits\"],"
               "\"data_codecs\":[" LITTLE "]}}"))
        return;
    size_t n = job.rows = 1 << 20, most = 16 + n / 8 + 4 * n;
    uint8_t *bytes = noise(4 * n), *mask = noise_below(n, 2);
    for (size_t i = 0; i < n && run > 1; i++) mask[i] = i / run % 2;
    job.in = (struct buffers){mask, NULL, bytes, {n, 0, 4 * n}};
    if (call == ENCODE) answers(0, 0, most);
    else {
        uint8_t *value = room(most);
        job.in = (struct buffers){NULL, NULL, value, {0, 0, optional_encode(bytes, mask, n, value)}};
        answers(n, 0, 4 * n);
    }
    measure(plain_optional);
}

static void optionals(void) {
    optional("optional encode 1 Mi, half of them", ENCODE, 1);
    optional("optional decode 1 Mi, half of them", DECODE, 1);
    optional("optional encode 1 Mi, runs of 64", ENCODE, 64);
    optional("optional decode 1 Mi, runs of 64", DECODE, 64);
}

/* ---- inner chunks of 64x64 behind which their index stands ---- */

static bool plain_shard(void) {
    if (job.call == DECODE) return shard_decode(job.in.bytes, job.in.len.bytes, 1024, 64, job.plain.bytes);
    job.plain.len.bytes = shard_encode(job.in.bytes, 1024, 64, job.plain.bytes);
    return true;
}

/* Every `zeros`th inner chunk is of fill values alone, or none. */
static void shard(const char *name, enum call call, size_t zeros) {
    if (!begin(name, call, "[1024,1024]", "\"uint32\"", "00000000",
               "{\"name\":\"sharding_indexed\",\"configuration\":{\"chunk_shape\":[64,64],\"codecs\":[" LITTLE "],"
               "\"index_codecs\":[" LITTLE "]}}"))
        return;
    size_t len = 4 << 20, most = len + 16 * 256;
    uint8_t *bytes = noise_in(len), *value = room(most);
    for (size_t i = 0; i < 256 && zeros; i += zeros)
        for (size_t y = 0; y < 64; y++) memset(bytes + 4 * ((i / 16 * 64 + y) * 1024 + i % 16 * 64), 0, 256);
    if (call == ENCODE) answers(0, 0, most);
    else {
        job.in = (struct buffers){NULL, NULL, value, {0, 0, shard_encode(bytes, 1024, 64, value)}};
        answers(0, 0, len);
    }
    measure(plain_shard);
}

static bool plain_shard_texts(void) {
    if (job.call == ENCODE)
        return shard_texts_encode(job.in.bytes, job.in.offsets, 200000, 2000, job.plain.bytes);
    return shard_texts_decode(job.in.bytes, job.in.len.bytes, 200000, 2000, job.plain.offsets, job.plain.bytes);
}

static void shard_texts(const char *name, enum call call) {
    if (!begin(name, call, "[200000]", "\"string\"", "",
               "{\"name\":\"sharding_indexed\",\"configuration\":{\"chunk_shape\":[2000],\"codecs\":[\"vlen-utf8\"],"
               "\"index_codecs\":[" LITTLE "]}}"))
        return;
    size_t n = 200000;
    uint64_t *offsets = room(8 * (n + 1));
    for (size_t i = 0; i < n; i++) offsets[i + 1] = offsets[i] + noise_number() % 25;
    uint8_t *bytes = noise_below(offsets[n], 26);
    size_t value = 4 * n + offsets[n] + 100 * (4 + 16);
    job.in = (struct buffers){NULL, offsets, bytes, {0, n + 1, offsets[n]}};
    if (call == ENCODE) answers(0, 0, value);
    else {
        job.in = (struct buffers){NULL, NULL, room(value), {0, 0, value}};
        shard_texts_encode(bytes, offsets, n, 2000, job.in.bytes);
        answers(0, n + 1, offsets[n]);
    }
    measure(plain_shard_texts);
}

static bool plain_shard_window(void) {
    return shard_window(job.in.bytes, job.in.len.bytes, job.rows, 256, job.at, job.plain.bytes);
}

static void shard_read(const char *name, size_t side, struct window at) {
    char shape[32];
    snprintf(shape, sizeof shape, "[%zu,%zu]", side, side);
    if (!begin(name, READ, shape, "\"uint32\"", "00000000",
               "{\"name\":\"sharding_indexed\",\"configuration\":{\"chunk_shape\":[256,256],\"codecs\":[" TURNED "],"
               "\"index_codecs\":[" LITTLE "]}}"))
        return;
    size_t len = 4 * side * side, value = len + 16 * (side / 256) * (side / 256);
    const uint8_t *elements = noise(len);
    job.rows = side;
    job.in = (struct buffers){NULL, NULL, room(value), {0, 0, value}};
    shard_turned(elements, side, 256, job.in.bytes);
    select_window(at);
    answers(0, 0, 4 * at.height * at.width);
    measure(plain_shard_window);
}

static void shards(void) {
    shard("shard encode 1024x1024, inner chunks of 64x64", ENCODE, 0);
    shard("shard decode 1024x1024, inner chunks of 64x64", DECODE, 0);
    shard("shard encode 1024x1024, half of them left out", ENCODE, 2);
    shard("shard decode 1024x1024, half of them left out", DECODE, 2);
    shard_texts("shard encode 200,000 short texts, 2,000 in each", ENCODE);
    shard_texts("shard decode 200,000 short texts, 2,000 in each", DECODE);
    struct window inside = {264, 269, 64, 64}, over = {224, 224, 64, 64}, wide = {100, 100, 512, 512};
    shard_read("shard read 64x64 of 1024x1024, of one inner chunk", 1024, inside);
    shard_read("shard read 64x64 of 4096x4096, of one inner chunk", 4096, inside);
    shard_read("shard read 64x64 of 1024x1024, of four", 1024, over);
    shard_read("shard read 64x64 of 4096x4096, of four", 4096, over);
    shard_read("shard read 512x512 of 4096x4096, of nine", 4096, wide);
}

/* ---- a square chunk of u32 by transpose and bytes, the highest byte first ("chain"), or by bytes ("bytes") ---- */

KERNEL(chain, transpose_u32(job.in.bytes, job.rows, job.columns, true, job.plain.bytes))
KERNEL(read_turned, window_turned(job.in.bytes, job.rows, job.at, job.plain.bytes))
KERNEL(read_rows, window_rows(job.in.bytes, job.columns, job.at, job.plain.bytes))

/* A write answers a new value; edits are made in one copy, each with elements of its own. */
static bool plain_write(void (*write)(uint8_t *, size_t, struct window, const uint8_t *), size_t stride) {
    size_t size = job.new.len.bytes / (job.numbers_len / 4);
    memcpy(job.plain.bytes, job.in.bytes, job.in.len.bytes);
    for (size_t i = 0; i < job.numbers_len / 4; i++) {
        uint64_t *edit = job.numbers + 4 * i;
        write(job.plain.bytes, stride, (struct window){edit[0], edit[1], edit[2], edit[3]}, job.new.bytes + i * size);
    }
    return true;
}
static bool plain_write_turned(void) { return plain_write(write_turned, job.rows); }
static bool plain_write_rows(void) { return plain_write(write_rows, job.columns); }
static bool plain_reads_turned(void) {
    size_t size = job.room.bytes / (job.numbers_len / 4);
    for (size_t i = 0; i < job.numbers_len / 4; i++) {
        uint64_t *at = job.numbers + 4 * i;
        window_turned(job.in.bytes, job.rows, (struct window){at[0], at[1], at[2], at[3]}, job.plain.bytes + i * size);
    }
    return true;
}
static bool plain_pick_turned(void) {
    return pick_turned(job.in.bytes, job.rows, job.columns, job.numbers, job.tuples, job.plain.bytes);
}
static bool plain_pick_rows(void) {
    return pick_rows(job.in.bytes, job.rows, job.columns, job.numbers, job.tuples, job.plain.bytes);
}
KERNEL(plan, plan_turned(job.rows, job.at, job.plain.offsets))
KERNEL(read_pieces, transpose_u32(job.in.bytes, job.at.width, job.at.height, true, job.plain.bytes))
KERNEL(copy, memcpy(job.plain.bytes, job.in.bytes, job.in.len.bytes))

/* Begins a workload of a chunk of side x side. */
static bool square(const char *name, enum call call, bool is_turned, size_t side) {
    char shape[32];
    snprintf(shape, sizeof shape, "[%zu,%zu]", side, side);
    bool wanted = begin(name, call, shape, "\"uint32\"", "00000000", is_turned ? TURNED : LITTLE);
    job.rows = job.columns = side;
    return wanted;
}

static void whole(const char *name, enum call call, bool is_turned, size_t side, bool (*plain)(void)) {
    if (!square(name, call, is_turned, side)) return;
    job.other_codecs = "[" TURNED "]";
    noise_in(4 * side * side);
    answers(0, 0, 4 * side * side);
    measure(plain);
}

static void window(const char *name, enum call call, bool is_turned, size_t side, size_t width) {
    if (!square(name, call, is_turned, side)) return;
    noise_in(4 * side * side);
    select_window((struct window){side / 4 + 3, side / 4 + 5, width, width});
    if (call == READ) {
        answers(0, 0, 4 * width * width);
        measure(is_turned ? plain_read_turned : plain_read_rows);
    } else {
        job.new = (struct buffers){NULL, NULL, noise(4 * width * width), {0, 0, 4 * width * width}};
        answers(0, 0, 4 * side * side);
        measure(is_turned ? plain_write_turned : plain_write_rows);
    }
}

/* 1,000 windows of a chunk, as numbers. */
static void windows(size_t side, size_t width, size_t count) {
    job.numbers_len = 4 * count;
    job.numbers = room(32 * count);
    for (size_t i = 0; i < count; i++) {
        uint64_t y = noise_number() % (side - width), x = noise_number() % (side - width);
        memcpy(job.numbers + 4 * i, (uint64_t[]){y, x, width, width}, 32);
    }
}

static void edits(const char *name, bool is_turned, size_t width) {
    size_t side = 512, count = 1000, size = 4 * width * width;
    if (!square(name, EDITS, is_turned, side)) return;
    noise_in(4 * side * side);
    windows(side, width, count);
    job.edits = room(count * sizeof *job.edits);
    for (size_t i = 0; i < count; i++) job.edits[i] = (zarrs_edit_size){ZARRS_BOX, 4, size};
    job.new = (struct buffers){NULL, NULL, noise(count * size), {0, 0, count * size}};
    answers(0, 0, 4 * side * side);
    measure(is_turned ? plain_write_turned : plain_write_rows);
}

static void reads(const char *name, size_t width) {
    size_t side = 512, count = 1000, size = 4 * width * width;
    if (!square(name, READS, true, side)) return;
    noise_in(4 * side * side);
    windows(side, width, count);
    job.selections = room(count * sizeof *job.selections);
    for (size_t i = 0; i < count; i++) job.selections[i] = (zarrs_selection_size){ZARRS_BOX, 4};
    answers(0, 0, count * size);
    measure(plain_reads_turned);
}

static void picks(const char *name, bool is_turned, size_t count) {
    size_t side = 2048;
    if (!square(name, READ, is_turned, side)) return;
    noise_in(4 * side * side);
    job.tuples = count;
    job.numbers_len = 2 * count;
    job.numbers = (uint64_t *)noise(16 * count);
    for (size_t i = 0; i < 2 * count; i++) job.numbers[i] %= side;
    answers(0, 0, 4 * count);
    measure(is_turned ? plain_pick_turned : plain_pick_rows);
}

/* The ranges of a window are told, or what was fetched of them is read. */
static void pieces(const char *name, enum call call, size_t side, size_t width) {
    if (!square(name, call, true, side)) return;
    select_window((struct window){side / 4 + 3, side / 4 + 5, width, width});
    if (call == PLAN) {
        answers(0, 2 * width, 0);
        measure(plain_plan);
    } else {
        noise_in(4 * width * width);
        job.in.offsets = room(16 * width);
        job.in.len.offsets = 2 * width;
        plan_turned(side, job.at, job.in.offsets);
        answers(0, 0, 4 * width * width);
        measure(plain_read_pieces);
    }
}

static void squares(void) {
    whole("chain encode 2048x2048", ENCODE, true, 2048, plain_chain);
    whole("chain decode 2048x2048", DECODE, true, 2048, plain_chain);
    window("chain read 64x64 of 2048x2048", READ, true, 2048, 64);
    window("chain read 256x256 of 2048x2048", READ, true, 2048, 256);
    window("chain read 1024x1024 of 2048x2048", READ, true, 2048, 1024);
    window("chain read 64x64 of 512x512", READ, true, 512, 64);
    window("chain read 64x64 of 4096x4096", READ, true, 4096, 64);
    window("chain read 256x256 of 4096x4096", READ, true, 4096, 256);
    window("chain write 64x64 of 2048x2048", WRITE, true, 2048, 64);
    window("chain write 256x256 of 2048x2048", WRITE, true, 2048, 256);
    window("chain write 1024x1024 of 2048x2048", WRITE, true, 2048, 1024);
    window("chain write 64x64 of 512x512", WRITE, true, 512, 64);
    window("chain write 64x64 of 4096x4096", WRITE, true, 4096, 64);
    window("bytes read 64x64 of 2048x2048", READ, false, 2048, 64);
    window("bytes read 1024x1024 of 2048x2048", READ, false, 2048, 1024);
    window("bytes write 64x64 of 2048x2048", WRITE, false, 2048, 64);
    edits("chain 1,000 edits of 8x8 of 512x512", true, 8);
    edits("chain 1,000 edits of 2x2 of 512x512", true, 2);
    edits("chain 1,000 edits of 32x32 of 512x512", true, 32);
    edits("bytes 1,000 edits of 8x8 of 512x512", false, 8);
    reads("chain 1,000 reads of 8x8 of 512x512", 8);
    picks("bytes read 100,000 tuples of 2048x2048", false, 100000);
    picks("chain read 100,000 tuples of 2048x2048", true, 100000);
    picks("bytes read 1,000 tuples of 2048x2048", false, 1000);
    picks("chain read 1,000 tuples of 2048x2048", true, 1000);
    pieces("chain plan 64x64 of 2048x2048", PLAN, 2048, 64);
    pieces("chain read pieces, 64x64 of 2048x2048", READ_PIECES, 2048, 64);
    whole("bytes reencode 2048x2048 to the chain", REENCODE, false, 2048, plain_chain);
    whole("bytes decode 2048x2048", DECODE, false, 2048, plain_copy);
    whole("bytes decode 2x2", DECODE, false, 2, plain_copy);
}

int main(int argc, char **argv) {
    words = argv + 1;
    words_len = argc - 1;
    if (words_len > 1 && !strcmp(words[0], "-s")) {
        seconds = atof(words[1]);
        words += 2;
        words_len -= 2;
    }
    transposes();
    packs();
    checksums();
    all_texts();
    all_prefixed();
    optionals();
    shards();
    squares();
    return status;
}
