/* Codecs of Zarr v3, proved: encode, decode and re-encode chunks, and read and write parts of
 * them.
 *
 * Every call of a chunk begins with a header, or with a chain that was made of one (zarrs_chain); zarrs_array_plan,
 * zarrs_part_put and zarrs_part_take are for arrays of many chunks, and know no codecs. A header is the
 * JSON text of a chunk's shape, the type of its elements, its fill value in hex and its codecs, as
 *
 *   {"shape":[2,3],"data_type":"uint16","fill_value":"0000","codecs":[
 *    {"name":"bytes","configuration":{"endian":"little"}}]}
 *
 * Types are bool, int2 to int64, uint2 to uint64, string, bytes, {"optional":TYPE} and
 * {"components":{"bits":32,"count":2,"signed":true}}; a float is an unsigned integer of its size.
 *
 * A fill value is in hex, two digits a byte:
 *
 *   type                      fill value
 *   bool                      00 or 01
 *   int2, int4, uint2, uint4  one byte: -1 is ff
 *   int8 to uint64            the bytes of the number, the lowest one first: 1 of uint16 is 0100
 *   a float                   its bits, as the unsigned integer of its size: 1.0 of 32 bits is 0000803f
 *   {"components":..}         each component's bytes, one component behind another
 *   string, bytes             the bytes, which may be none: the text ab is 6162
 *   {"optional":TYPE}         absent 00; else the value of TYPE, and 01 behind it: 1 of an optional uint16 is
 *                             010001, an empty text 01; an absent one within one that is there is 0001
 *
 * A call returns ZARRS_DONE; ZARRS_SHORT where a buffer is too short for the answer; or the code of the
 * first error, one of enum zarrs_code, whose name zarrs_error_name returns. Where it returns ZARRS_SHORT
 * it has written how many items are needed, and nothing else; where it fails, nothing at all (but for
 * zarrs_edit, which says how many edits stay). ZARRS_OUT_OF_MEMORY may come in place of any other code.
 *
 * Elements cross in three buffers, whatever their type:
 *
 *   type            masks                     offsets                     bytes
 *   fixed size      none                      none                        each element's, row by row,
 *                                                                         the lowest byte first
 *   string, bytes   none                      n + 1: where each element   all elements' bytes, joined
 *                                             begins, and the last ends
 *   optional T      n bytes for each level,   as T                        as T
 *                   the outermost first:
 *                   1 present, 0 absent
 *
 * What a call writes is fixed by the elements: offsets begin at 0, masks are 0 and 1, and under an absent
 * element there are zeros, or no bytes. What it is given may be looser: the first offset may be above 0,
 * and what stands under an absent element doesn't matter. An answer's parts are at the front of
 * the buffers, and what is behind them stays as it was, but for a zero that zarrs_error_name writes. The
 * sizes that a fixed type needs follow from the header, so that one call is enough; of a string or bytes
 * call once with a guess, or with buffers of no length: a call makes its whole answer before it says that
 * it is ZARRS_SHORT, also one of many gigabytes.
 *
 * A selection is a count and numbers. Where tuples is ZARRS_BOX it is a box of the chunk: first where each
 * axis starts, then how long it is there. Else it is so many index tuples, one after another, a number an
 * axis each; a tuple may come more than once. Elements of a selection come row by row, or in the order of
 * the tuples. Numbers that are no selection give ZARRS_ARGUMENT.
 *
 * What the caller keeps: a pointer is valid for its length, and may be NULL where that is 0; pointers to
 * uint64_t are aligned; a buffer that is written overlaps no other argument; a bool is 0 or 1. Calls keep
 * no state but in a zarrs_chain, so threads may call at once, each with chains of its own; no call is made
 * in a signal handler, nor in the forked child of a process with threads. malloc, realloc and free are the
 * process's.
 */
#ifndef ZARRS_CODECS_H
#define ZARRS_CODECS_H

#include <stdbool.h>
#include <stddef.h>
#include <stdint.h>

#ifdef __cplusplus
extern "C" {
#endif

/* All codes, and why a call fails. A code keeps its number in all versions; later ones may have more. */
enum zarrs_code {
    ZARRS_DONE = 0,
    ZARRS_SHORT = 1, /* a buffer is too short for the answer */
    ZARRS_SYNTAX = 2, /* the header, or a list of codecs, isn't of its form */
    ZARRS_ARGUMENT = 3, /* masks of several lengths, numbers that are no selection, no ranges of the bytes fetched, no part, or no key encoding */
    ZARRS_NOT_IN_PLACE = 4, /* a value can't be edited where it stands */
    ZARRS_OUT_OF_MEMORY = 10, /* an allocation failed: may come in place of any other */
    ZARRS_STORAGE = 11, /* a byte is needed that isn't among the pieces */
    ZARRS_UNSUPPORTED_DATA_TYPE = 12, /* a codec doesn't take this type */
    ZARRS_ENDIANNESS_MISSING = 13, /* no byte order, and components of several bytes */
    ZARRS_ARRAY_BYTES_KIND = 14, /* fixed, variable or optional elements, where the type says another */
    ZARRS_INVALID_BYTES_LENGTH = 15, /* a length or count isn't the one that is due */
    ZARRS_INCOMPATIBLE_DIMENSIONALITY = 16, /* axes of a selection or an order differ from the shape's */
    ZARRS_OUT_OF_BOUNDS = 17, /* a selection outside the shape */
    ZARRS_OVERFLOW = 18, /* a product or sum passes 2^64 - 1 */
    ZARRS_INVALID_FILL_VALUE = 19, /* it doesn't fit the type, or inner codecs change it */
    ZARRS_RESHAPE_DIMENSION = 20, /* an input axis that isn't there */
    ZARRS_RESHAPE_ELEMENTS = 21, /* the number of elements changes */
    ZARRS_BIT_RANGE = 22, /* bits outside the component, or none */
    ZARRS_PADDING_BYTE = 23, /* not the number of spare bits */
    ZARRS_INDEX_LENGTH = 24, /* longer than the value */
    ZARRS_INVALID_OFFSETS = 25, /* offsets are missing, fall, or end elsewhere */
    ZARRS_OFFSET_TOO_LARGE = 26, /* doesn't fit 32 bits */
    ZARRS_OFFSET_NOT_KEPT = 27, /* the index codecs change an offset, or a size */
    ZARRS_MASK_VALUE = 28, /* neither 0 nor 1 */
    ZARRS_HEADER_OVERFLOW = 29, /* two lengths pass 2^64 - 1 */
    ZARRS_INVALID_BYTE_RANGE = 30, /* a range ends past the bytes: a value is too short; or pieces that touch */
    ZARRS_BYTES_CODEC = 31, /* a bytes-to-bytes codec failed */
    ZARRS_DATA_MISMATCH = 32, /* not one element for each place */
    ZARRS_UNSUPPORTED_TARGET = 33, /* elements of variable length */
    ZARRS_TARGET_MISMATCH = 34, /* levels, counts or sizes differ */
    ZARRS_REVERSED_RANGE = 35, /* ends before it starts */
    ZARRS_ELEMENT_COUNT = 36, /* a value's count of elements isn't the chunk's */
    ZARRS_INDIVISIBLE_SHAPE = 37, /* an inner chunk's size doesn't divide the chunk's */
    ZARRS_INDEX_NOT_FIXED = 38, /* the encoded index isn't of a fixed size */
    ZARRS_UNKNOWN_NAME = 50, /* no codec has this name */
    ZARRS_INVALID_CONFIGURATION = 51, /* a key is missing, or its value of another kind */
    ZARRS_MISSING_ARRAY_TO_BYTES = 52, /* no array-to-bytes codec */
    ZARRS_MULTIPLE_ARRAY_TO_BYTES = 53, /* more than one array-to-bytes codec */
    ZARRS_BIT_ORDER = 54, /* a bit range ends before it starts */
    ZARRS_MULTIPLE_AUTO = 55, /* several automatic sizes */
    ZARRS_ZERO_SIZE = 56, /* a size of a reshape, of an inner chunk, or of an array's chunks is zero, or a length of a region with a part */
    ZARRS_NOT_A_PERMUTATION = 57 /* an order that doesn't name each axis once */
};

/* As a count of tuples: the numbers are those of a box. */
#define ZARRS_BOX UINT64_MAX

/* How many items the three buffers have, or need. */
typedef struct zarrs_sizes {
    size_t masks;
    size_t offsets;
    size_t bytes;
} zarrs_sizes;

/* A selection of a list: its count of tuples, or ZARRS_BOX, and how many numbers it has. The numbers of all
 * selections stand joined, in their order. */
typedef struct zarrs_selection_size {
    uint64_t tuples;
    size_t numbers;
} zarrs_selection_size;

/* An edit of a list: the same of its selection, and how many bytes its new elements have. The bytes of all
 * edits stand joined, too. */
typedef struct zarrs_edit_size {
    uint64_t tuples;
    size_t numbers;
    size_t bytes;
} zarrs_edit_size;

/* How many chunks a plan has, and how many items its three buffers have, or need. */
typedef struct zarrs_plan_sizes {
    size_t chunks;
    size_t keys;
    size_t offsets;
    size_t numbers;
} zarrs_plan_sizes;

/* How the indices of a chunk make its key: with '/' as separator, the chunk 1, 2 has c/1/2 or 1/2. */
#define ZARRS_KEYS_DEFAULT 0
#define ZARRS_KEYS_V2 1

/* The version of this header, and that of the library: the same text, with the word unproved behind it where the
 * library was made without a proof. */
#define ZARRS_VERSION "0.1.0"
extern const char zarrs_version[];

/* Whether a header reads and its codecs take such chunks. */
uint32_t zarrs_check(const uint8_t *header, size_t header_len);

/* The name of a code in ASCII, and a zero behind it where there is room, which needed doesn't count; no byte of a
 * name for a number that no call returns. */
uint32_t zarrs_error_name(uint32_t code, uint8_t *name, size_t name_len, size_t *needed);

/* The same with a zero behind it, in text, which has ZARRS_NAME_SIZE bytes. */
#define ZARRS_NAME_SIZE 64
#if defined(__cplusplus) || (defined(__STDC_VERSION__) && __STDC_VERSION__ >= 199901L)
static inline
#elif defined(__GNUC__) /* C89 has no word for it */
static __inline__
#else
static
#endif
const char *zarrs_name(uint32_t code, char *text)
{
    size_t len = 0;
    if (zarrs_error_name(code, (uint8_t *)text, ZARRS_NAME_SIZE - 1, &len) != ZARRS_DONE)
        len = 0;
    text[len] = '\0';
    return text;
}

/* How many bytes a chunk's value has: just size where kind is 0, at most size where it is 1, any number
 * where it is 2. */
uint32_t zarrs_representation(const uint8_t *header, size_t header_len, uint32_t *kind, uint64_t *size);

/* The value that is written for the chunk of these elements. */
uint32_t zarrs_encode(const uint8_t *header, size_t header_len,
                      const uint8_t *masks, size_t masks_len,
                      const uint64_t *offsets, size_t offsets_len,
                      const uint8_t *bytes, size_t bytes_len,
                      uint8_t *value, size_t value_len, size_t *needed);

/* The elements of the chunk that a value stands for. */
uint32_t zarrs_decode(const uint8_t *header, size_t header_len,
                      const uint8_t *value, size_t value_len,
                      uint8_t *masks, size_t masks_len,
                      uint64_t *offsets, size_t offsets_len,
                      uint8_t *bytes, size_t bytes_len, zarrs_sizes *needed);

/* The value that the chain of other codecs, a JSON list as in a header, writes for the chunk that a value
 * stands for. */
uint32_t zarrs_reencode(const uint8_t *header, size_t header_len,
                        const uint8_t *value, size_t value_len,
                        const uint8_t *codecs, size_t codecs_len,
                        uint8_t *other, size_t other_len, size_t *needed);

/* The selected elements, in the selection's order, of the chunk that a value stands for, or fill values where
 * nothing is stored, and then the value isn't read. Of bytes and packbits, with no bytes-to-bytes codec behind
 * them, the bytes of these elements are looked at and no others. */
uint32_t zarrs_read(const uint8_t *header, size_t header_len,
                    bool is_stored, const uint8_t *value, size_t value_len,
                    uint64_t tuples, const uint64_t *numbers, size_t numbers_len,
                    uint8_t *masks, size_t masks_len,
                    uint64_t *offsets, size_t offsets_len,
                    uint8_t *bytes, size_t bytes_len, zarrs_sizes *needed);

/* What zarrs_read returns of each selection of a list: the parts of each answer stand behind those of the one
 * before it, so each has its own masks, its own offsets, from 0 on, and its own bytes. needed counts them all.
 * The header is read once, and a value that has to be decoded whole is decoded once. */
uint32_t zarrs_read_many(const uint8_t *header, size_t header_len,
                         bool is_stored, const uint8_t *value, size_t value_len,
                         const zarrs_selection_size *sizes, size_t sizes_len,
                         const uint64_t *numbers, size_t numbers_len,
                         uint8_t *masks, size_t masks_len,
                         uint64_t *offsets, size_t offsets_len,
                         uint8_t *bytes, size_t bytes_len, zarrs_sizes *needed);

/* The value of the chunk with new elements at the selected places, in the selection's order: it begins as the
 * chunk that a value stands for, or as fill values where nothing is stored, and then the value isn't read. Of a
 * tuple that comes more than once the last element stands. The old value stays as it is. */
uint32_t zarrs_write(const uint8_t *header, size_t header_len,
                     bool is_stored, const uint8_t *value, size_t value_len,
                     uint64_t tuples, const uint64_t *numbers, size_t numbers_len,
                     const uint8_t *masks, size_t masks_len,
                     const uint64_t *offsets, size_t offsets_len,
                     const uint8_t *bytes, size_t bytes_len,
                     uint8_t *out, size_t out_len, size_t *needed);

/* New elements written into the value itself, by a list of edits, one after another, each as zarrs_write makes
 * it. The header is read once, and of the value only the bytes of the edits' places are written; it may overlap
 * no other argument. That is done where all codecs of the chain write a part of a value (bytes, behind
 * array-to-array codecs or none, and no bytes-to-bytes codec), and the value has all bytes of the chunk; else
 * ZARRS_NOT_IN_PLACE is returned. done is always written: it is how many edits were made. Where one fails,
 * those before it stay, and it and those behind it leave the value as it is. So elements are of a fixed size,
 * and neither masks nor offsets are given. */
uint32_t zarrs_edit(const uint8_t *header, size_t header_len,
                    uint8_t *value, size_t value_len,
                    const zarrs_edit_size *sizes, size_t sizes_len,
                    const uint64_t *numbers, size_t numbers_len,
                    const uint8_t *bytes, size_t bytes_len, size_t *done);

/* Which bytes of a value zarrs_read asks for, whatever is stored: ranges, each the number of its first byte
 * and that of the first byte behind it, in order and with at least a byte between one and the next. ranges_len and
 * needed count numbers, two for each range. Of a range that ends behind the value, fetch what there is: the read then
 * says that it is too short. Where is_planned is false there are none: which bytes are needed can't be
 * told before some of the value is there, or the whole value is needed; zarrs_lacking says which. Where the buffer is
 * too short, is_planned is written too, and ZARRS_SHORT is returned. */
uint32_t zarrs_planned_ranges(const uint8_t *header, size_t header_len,
                              uint64_t tuples, const uint64_t *numbers, size_t numbers_len,
                              uint64_t *ranges, size_t ranges_len,
                              bool *is_planned, size_t *needed);

/* What zarrs_read returns of a value of len bytes, by pieces of it: such ranges, and in fetched the bytes of
 * all of them, joined. Of any chain, an answer is that of zarrs_read for every value that has these bytes
 * there: none rests on a byte that isn't among them. ZARRS_STORAGE says that such a byte is needed: it comes
 * only where the header, the form of the selection and the ranges have no error, and neither where all bytes
 * of the value are among them nor where all bytes of the ranges are that zarrs_planned_ranges returns;
 * zarrs_lacking returns which bytes to fetch before it is called again. Ranges that touch or overlap, come in
 * another order or end behind the value give ZARRS_INVALID_BYTE_RANGE, as a value does that is too short; a
 * range that ends before it starts or lacks its end, and fewer or more bytes in fetched than the ranges have,
 * give ZARRS_ARGUMENT. */
uint32_t zarrs_read_pieces(const uint8_t *header, size_t header_len,
                           uint64_t len, const uint64_t *ranges, size_t ranges_len,
                           const uint8_t *fetched, size_t fetched_len,
                           uint64_t tuples, const uint64_t *numbers, size_t numbers_len,
                           uint8_t *masks, size_t masks_len,
                           uint64_t *offsets, size_t offsets_len,
                           uint8_t *bytes, size_t bytes_len, zarrs_sizes *needed);

/* Which bytes zarrs_read_pieces lacks, given the same: ranges in order, each a start and an end, and between
 * one and the next at least a byte; none where it is answered. The value has each byte of them, and no range
 * that was fetched has it. Where zarrs_planned_ranges plans the read, they are all planned bytes that are
 * lacking and no others, so that one round is enough. So a chunk of any codecs is read in rounds, the first one
 * with no ranges: each fetches what the one before it lacked, and joins ranges that touch. Texts of a
 * zarrs.vlen whose chains are bytes take at most three: how long the offsets are, the offsets, the texts. Of a
 * shard the index is lacking first, and then what the reads of all inner chunks lack, so two rounds are enough. Where
 * these hold shards or texts of a zarrs.vlen, or where over 1,024 ranges of them are needed, of fewer than 16 bytes each
 * on average, it is what one inner chunk after the other lacks, and there are as many rounds as all of them take.
 * Whoever would rather have the inner chunks whole, in one round behind that of the index, calls this with a header
 * that has "crc32c" at the end of the shard's codecs, and zarrs_read_pieces with its own. Of any other chain the whole
 * value is lacking. Codes are those of zarrs_read_pieces, but for ZARRS_STORAGE. examples/c/rounds.c reads a file so. */
uint32_t zarrs_lacking(const uint8_t *header, size_t header_len,
                       uint64_t len, const uint64_t *ranges, size_t ranges_len,
                       const uint8_t *fetched, size_t fetched_len,
                       uint64_t tuples, const uint64_t *numbers, size_t numbers_len,
                       uint64_t *lacking, size_t lacking_len, size_t *needed);

/* What a region of an array needs of each chunk that it touches: the key of the chunk, and the region's part in it.
 * shape is the array's and chunk_shape that of its chunks; encoding is one of ZARRS_KEYS_, and separator '/' or '.'.
 * The region is a box of the array, as a selection: first where each axis starts, then how long it is there.
 *
 * The keys are joined in keys, with no zero behind one, and offsets is where each begins and the last ends, so one
 * more than chunks. numbers has for each chunk four numbers an axis: the chunk's indices; where the part begins in
 * the chunk; how long it is; where it begins in the region. The second and the third are the box to read of the
 * chunk, or to write there. Parts have all elements of the region and each once, and no key comes twice; an empty
 * region has no parts. Chunks at an array's end are whole, though the array has no elements there.
 *
 * The first error is told: ZARRS_ARGUMENT of the encoding or the separator; ZARRS_ZERO_SIZE of chunk_shape;
 * ZARRS_INCOMPATIBLE_DIMENSIONALITY where it has more or fewer axes than shape; of the region ZARRS_ARGUMENT where it has
 * an odd number of numbers, ZARRS_OVERFLOW where a range ends past 2^64 - 1, ZARRS_INCOMPATIBLE_DIMENSIONALITY,
 * ZARRS_OUT_OF_BOUNDS, and ZARRS_OVERFLOW where it has 2^64 elements or more. examples/c/array.c reads a region so. */
uint32_t zarrs_array_plan(const uint64_t *shape, size_t shape_len,
                          const uint64_t *chunk_shape, size_t chunk_shape_len,
                          uint32_t encoding, uint32_t separator,
                          const uint64_t *region, size_t region_len,
                          uint8_t *keys, size_t keys_len,
                          uint64_t *offsets, size_t offsets_len,
                          uint64_t *numbers, size_t numbers_len, zarrs_plan_sizes *needed);

/* Puts the elements of a part, as a read of its box of the chunk returns them, at their places among those of the region:
 * elements of one size, of size bytes each, row by row. lengths is how long the region is along each axis, and part
 * the part's numbers in a plan of it. All other bytes of the region stay as they were, so parts may come in any order;
 * once all were put, the region has the array's elements. One call at a time has a region. ZARRS_ZERO_SIZE where the
 * region has no elements, and so no parts; ZARRS_ARGUMENT where the part hasn't four numbers an axis; ZARRS_TARGET_MISMATCH
 * where size is 0, or elements_len isn't what the part's elements have; ZARRS_INVALID_BYTES_LENGTH where region_len isn't
 * what the region's have; ZARRS_OVERFLOW or ZARRS_OUT_OF_BOUNDS of a part that isn't the region's. */
uint32_t zarrs_part_put(size_t size, const uint64_t *lengths, size_t lengths_len,
                        const uint64_t *part, size_t part_len,
                        const uint8_t *elements, size_t elements_len,
                        uint8_t *region, size_t region_len);

/* The other way round: takes the elements of a part out of those of a region, row by row, as a write of its box of the
 * chunk needs them. elements_len is just what they have. Codes are those of zarrs_part_put. */
uint32_t zarrs_part_take(size_t size, const uint64_t *lengths, size_t lengths_len,
                         const uint64_t *part, size_t part_len,
                         const uint8_t *region, size_t region_len,
                         uint8_t *elements, size_t elements_len);

/* A chain that is kept from one call to the next, so that its header is read once: a call over it begins at once,
 * which is most of what a small read costs otherwise. It begins as {0}, which keeps none, and is given to
 * zarrs_chain_free at its end; it isn't copied, and no other code writes into it. One call at a time uses it: for
 * another thread, share it. It keeps the chunk that the header is of, and nothing of a value. */
typedef struct zarrs_chain {
    bool is_there;
    void *at;
} zarrs_chain;

/* Keeps the chain of a header in place of what chain kept. Where it fails, with the codes of zarrs_check, what was
 * kept stays. */
uint32_t zarrs_chain_new(const uint8_t *header, size_t header_len, zarrs_chain *chain);

/* Keeps what chain keeps in other too, which is another one, in place of what that kept: for another thread, which
 * then uses other while this one uses chain, and frees it. No header is read, and both are one in memory. */
uint32_t zarrs_chain_share(zarrs_chain *chain, zarrs_chain *other);

/* Frees what is kept: chain keeps none then, as at first. */
void zarrs_chain_free(zarrs_chain *chain);

/* Each is the call above of the same name over a chain that is kept, which stays as it is; ZARRS_ARGUMENT where none
 * is kept. */
uint32_t zarrs_chain_representation(zarrs_chain *chain, uint32_t *kind, uint64_t *size);
uint32_t zarrs_chain_encode(zarrs_chain *chain, const uint8_t *masks, size_t masks_len,
                            const uint64_t *offsets, size_t offsets_len,
                            const uint8_t *bytes, size_t bytes_len,
                            uint8_t *value, size_t value_len, size_t *needed);
uint32_t zarrs_chain_decode(zarrs_chain *chain, const uint8_t *value, size_t value_len,
                            uint8_t *masks, size_t masks_len,
                            uint64_t *offsets, size_t offsets_len,
                            uint8_t *bytes, size_t bytes_len, zarrs_sizes *needed);
uint32_t zarrs_chain_reencode(zarrs_chain *chain, const uint8_t *value, size_t value_len,
                              const uint8_t *codecs, size_t codecs_len,
                              uint8_t *other, size_t other_len, size_t *needed);
uint32_t zarrs_chain_read(zarrs_chain *chain, bool is_stored, const uint8_t *value, size_t value_len,
                          uint64_t tuples, const uint64_t *numbers, size_t numbers_len,
                          uint8_t *masks, size_t masks_len,
                          uint64_t *offsets, size_t offsets_len,
                          uint8_t *bytes, size_t bytes_len, zarrs_sizes *needed);
uint32_t zarrs_chain_read_many(zarrs_chain *chain, bool is_stored, const uint8_t *value, size_t value_len,
                               const zarrs_selection_size *sizes, size_t sizes_len,
                               const uint64_t *numbers, size_t numbers_len,
                               uint8_t *masks, size_t masks_len,
                               uint64_t *offsets, size_t offsets_len,
                               uint8_t *bytes, size_t bytes_len, zarrs_sizes *needed);
uint32_t zarrs_chain_write(zarrs_chain *chain, bool is_stored, const uint8_t *value, size_t value_len,
                           uint64_t tuples, const uint64_t *numbers, size_t numbers_len,
                           const uint8_t *masks, size_t masks_len,
                           const uint64_t *offsets, size_t offsets_len,
                           const uint8_t *bytes, size_t bytes_len,
                           uint8_t *out, size_t out_len, size_t *needed);
uint32_t zarrs_chain_edit(zarrs_chain *chain, uint8_t *value, size_t value_len,
                          const zarrs_edit_size *sizes, size_t sizes_len,
                          const uint64_t *numbers, size_t numbers_len,
                          const uint8_t *bytes, size_t bytes_len, size_t *done);
uint32_t zarrs_chain_planned_ranges(zarrs_chain *chain, uint64_t tuples, const uint64_t *numbers, size_t numbers_len,
                                    uint64_t *ranges, size_t ranges_len,
                                    bool *is_planned, size_t *needed);
uint32_t zarrs_chain_read_pieces(zarrs_chain *chain, uint64_t len, const uint64_t *ranges, size_t ranges_len,
                                 const uint8_t *fetched, size_t fetched_len,
                                 uint64_t tuples, const uint64_t *numbers, size_t numbers_len,
                                 uint8_t *masks, size_t masks_len,
                                 uint64_t *offsets, size_t offsets_len,
                                 uint8_t *bytes, size_t bytes_len, zarrs_sizes *needed);
uint32_t zarrs_chain_lacking(zarrs_chain *chain, uint64_t len, const uint64_t *ranges, size_t ranges_len,
                             const uint8_t *fetched, size_t fetched_len,
                             uint64_t tuples, const uint64_t *numbers, size_t numbers_len,
                             uint64_t *lacking, size_t lacking_len, size_t *needed);

#ifdef __cplusplus
}
#endif

#endif
