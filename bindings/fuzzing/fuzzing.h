/* What the files of the fuzzer share. */
#ifndef FUZZING_H
#define FUZZING_H

#include "zarrs_codecs.h"

enum { ROOM = 1 << 14, PAGE = 4096, AXES = 5, PATTERN = 0xA5 };
enum { CHECK, REPRESENTATION, ENCODE, DECODE, READ, WRITE, REENCODE, PLAN, PIECES, NAME, MANY, EDIT, LACKING, KEEP, SHARE, ARRAY_PLAN, PART_PUT, PART_TAKE,
       KINDS };
/* Memory that ends where none is; a call may write the last `len` bytes of it. */
typedef struct { uint8_t *begin; size_t len; } room;

typedef struct {
    size_t masks, offsets, bytes;
    uint8_t mask[ROOM], byte[ROOM];
    uint64_t offset[ROOM / 8];
} elements;

typedef struct { uint32_t code; size_t size; uint8_t byte[ROOM]; } value;

typedef struct { uint64_t tuples; size_t count; uint64_t number[ROOM / 8]; } selection;

/* What a header says, and its text. */
typedef struct {
    size_t axes, count, levels, size; /* of an element, 0 where it varies */
    uint64_t shape[AXES];
    bool is_text;
    int narrow; /* bits of a type of fewer than 8, and 1 for bool */
    bool is_signed, is_end;
    size_t index; /* of a plain vlen, the bytes of an offset, which is_end says where they are; else 0 */
    size_t len, codecs_len;
    char text[ROOM], codecs[ROOM / 2];
} header;

typedef struct {
    uint64_t seed, random, begun;
    bool is_loose, is_alone;
    uint64_t calls[KINDS], done[KINDS], kept[KINDS], refused_memory;
    room header, codecs, value, masks, offsets, bytes, numbers, ranges, fetched;
    room to_masks, to_offsets, to_bytes, to_value, to_ranges, to_counts;
    room chains[3];
    zarrs_chain *chain, *other, *none; /* at the ends of these; both of the first keep one chain, or the second none */
    bool is_kept; /* whether it is that of the header at hand */
    uint32_t code;
} fuzzer;

enum { ROOMS = 18, WRITTEN = 6 };

typedef struct { const uint8_t *at; size_t len; } lent;
#define LENT(it) (it).at, (it).len

#define EXPECT(it, what) do { if (!(it)) fault(f, h, what); } while (0)

/* The next allocation of this thread that is refused; none where it is below 0. */
extern __thread long allocations_left;
extern __thread bool was_refused;

uint64_t some(fuzzer *f, uint64_t below);
room made_room(void);
/* Bytes at the end of a room; NULL now and then where there are none. */
void *put(fuzzer *f, room to, const void *data, size_t len);
/* So many bytes to be written, at the end of a room; all of it has the pattern. */
void *blank(fuzzer *f, room *to, size_t len);
bool has_pattern(const uint8_t *at, size_t len);
/* Whether a room of `len` bytes to be written has the pattern, but for the first `kept` of them. */
bool untouched(room it, size_t len, size_t kept);
void fault(fuzzer *f, const header *h, const char *what);
void add_codecs(fuzzer *f, char *text, size_t *len, const header *h, size_t levels);
/* A header of a small chunk; now and then a spoilt one. */
void make_header(fuzzer *f, header *h);
size_t spoil(fuzzer *f, uint8_t *bytes, size_t len);
void make_elements(fuzzer *f, const header *h, size_t count, elements *e);
void make_selection(fuzzer *f, const header *h, selection *s);
/* How many elements a selection of a chunk means, and the place of each, row by row; SIZE_MAX where it is none. */
size_t places(const header *h, const selection *s, size_t *place);
void before(fuzzer *f);
/* Of a call that has ended, whether it may be made again, since memory was refused. */
bool after(fuzzer *f, const header *h, int kind, uint32_t code);
/* A call with the header's text, and then the same over a chain that is kept, which has to answer and write the same. It
 * is the code of the first, and what that wrote is there. */
#define BOTH(kind, name, ...)                                                                                          \
    (before_header(f), f->code = zarrs_##name(LENT(text), __VA_ARGS__),                                                \
     after_kept(f, h, kind, zarrs_chain_##name(before_kept(f, h, kind), __VA_ARGS__)))
void before_header(fuzzer *f);
zarrs_chain *before_kept(fuzzer *f, const header *h, int kind);
uint32_t after_kept(fuzzer *f, const header *h, int kind, uint32_t code);
/* Keeps the chain of a header, of which `check` is answered, in place of another one's or none. */
void keep(fuzzer *f, const header *h, uint32_t check);
/* Keeps a chain that another thread keeps too, whose header is answered; false where there is none. */
bool take(fuzzer *f, header *h);
/* Frees what the thread keeps. */
void let_go(fuzzer *f);
/* What the threads have given one another is freed. */
void let_common_go(void);
/* A call that tells elements; `given` is a value, or pieces. */
uint32_t tell(fuzzer *f, const header *h, int kind, bool is_stored, lent given, uint64_t length,
    lent ranges, const selection *s, elements *e);
/* A call that writes a value. */
void write_value(fuzzer *f, const header *h, int kind, bool is_stored, lent old, const selection *s,
    const elements *e, lent codecs, value *v);
/* Reads several selections by one call, and each by one of its own; `check` is what is answered of the header. */
void read_several(fuzzer *f, const header *h, const value *v, bool is_stored, uint32_t check);
/* Makes several edits of a good header's chunk by one call, and each by a write. */
void edit_several(fuzzer *f, const header *h, const value *v);
bool same_elements(const elements *a, const elements *b);
/* Reads a selection by pieces, and fetches what each read lacks; `code` and `read` are what a read of the value answers,
 * and `plan` the ranges that it plans, where it does. */
void read_in_rounds(fuzzer *f, const header *h, const value *v, const selection *s, uint32_t code, const elements *read,
    const uint64_t *plan, size_t planned);
/* Plans a region of an array, puts its parts and takes them, and looks at each beside plain loops. */
void look_at_array(fuzzer *f, const header *h);
void turn(fuzzer *f);

#endif
