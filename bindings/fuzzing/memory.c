/* Memory that ends where none is, and allocations that are refused. */
#define _GNU_SOURCE
#include "fuzzing.h"
#include <stdio.h>
#include <stdlib.h>
#include <string.h>
#include <sys/mman.h>

__thread long allocations_left = -1;
__thread bool was_refused;
#if defined(__has_feature)
#if __has_feature(address_sanitizer) || __has_feature(thread_sanitizer)
#define HAS_ITS_OWN_MALLOC 1
#endif
#endif

#if defined(__SANITIZE_ADDRESS__) || defined(__SANITIZE_THREAD__)
#define HAS_ITS_OWN_MALLOC 1
#endif

/* With a sanitizer of addresses or threads malloc is its own, and nothing is refused. */
#ifndef HAS_ITS_OWN_MALLOC
extern void *__libc_malloc(size_t);
extern void *__libc_realloc(void *, size_t);

static bool is_refused_now(void)
{
    if (allocations_left < 0)
        return false;
    if (allocations_left > 0) {
        allocations_left--;
        return false;
    }
    was_refused = true;
    return true;
}

void *malloc(size_t size) { return is_refused_now() ? NULL : __libc_malloc(size); }
void *realloc(void *at, size_t size) { return is_refused_now() ? NULL : __libc_realloc(at, size); }
#endif

void fault(fuzzer *f, const header *h, const char *what)
{
    fprintf(stderr, "fault: %s\nseed %llu, header %.*s\n", what, (unsigned long long)f->begun, (int)h->len, h->text);
    abort();
}

uint64_t some(fuzzer *f, uint64_t below)
{
    f->random ^= f->random >> 12;
    f->random ^= f->random << 25;
    f->random ^= f->random >> 27;
    return below ? (f->random * 2685821657736338717u >> 16) % below : 0;
}

room made_room(void)
{
    uint8_t *at = mmap(NULL, ROOM + 2 * PAGE, PROT_NONE, MAP_PRIVATE | MAP_ANONYMOUS, -1, 0);
    if (at == MAP_FAILED || mprotect(at + PAGE, ROOM, PROT_READ | PROT_WRITE))
        abort();
    memset(at + PAGE, PATTERN, ROOM);
    return (room){at + PAGE, 0};
}

/* Bytes at the end of a room; NULL now and then where there are none. */
void *put(fuzzer *f, room to, const void *data, size_t len)
{
    uint8_t *at = to.begin + ROOM - len;
    if (len == 0 && some(f, 2))
        return NULL;
    if (len)
        memcpy(at, data, len);
    return at;
}

/* So many bytes to be written, at the end of a room; all of it has the pattern. */
void *blank(fuzzer *f, room *to, size_t len)
{
    memset(to->begin, PATTERN, ROOM);
    to->len = len;
    return len == 0 && some(f, 2) ? NULL : to->begin + ROOM - len;
}

/* Whether bytes have the pattern: each is as the one behind it. */
bool has_pattern(const uint8_t *at, size_t len)
{
    return len == 0 || (at[0] == PATTERN && memcmp(at, at + 1, len - 1) == 0);
}

/* Whether a room of `len` bytes to be written has the pattern, but for the first `kept` of them. */
bool untouched(room it, size_t len, size_t kept)
{
    return has_pattern(it.begin, ROOM - len) && has_pattern(it.begin + ROOM - len + kept, len - kept);
}
