/* Chains that are kept: made, shared, freed; and each call over one beside the call with its header's text. */
#include "fuzzing.h"
#include <pthread.h>
#include <string.h>

enum { COMMON = 2 };

static __thread uint8_t was[WRITTEN][ROOM], left[WRITTEN][ROOM];
static __thread zarrs_chain *used, held;

/* What threads give one another, with the header that each is of. */
static pthread_mutex_t lock = PTHREAD_MUTEX_INITIALIZER;
static zarrs_chain common[COMMON];
static header headers[COMMON];

static const header nothing;

static void note(fuzzer *f, uint8_t (*to)[ROOM])
{
    for (room *it = &f->to_masks; it < &f->to_masks + WRITTEN; it++, to++)
        memcpy(*to, it->begin + ROOM - it->len, it->len);
}

static void put_back(fuzzer *f, uint8_t (*from)[ROOM])
{
    for (room *it = &f->to_masks; it < &f->to_masks + WRITTEN; it++, from++)
        memcpy(it->begin + ROOM - it->len, *from, it->len);
}

/* Whether all that a call may write is as it was noted, and what stands before it has its pattern. */
static bool is_as(fuzzer *f, uint8_t (*noted)[ROOM])
{
    bool is_same = true;
    for (room *it = &f->to_masks; it < &f->to_masks + WRITTEN; it++, noted++)
        is_same &= has_pattern(it->begin, ROOM - it->len) && !memcmp(it->begin + ROOM - it->len, *noted, it->len);
    return is_same;
}

static bool is_same_handle(const zarrs_chain *a, const zarrs_chain *b) { return a->is_there == b->is_there && a->at == b->at; }

/* What stands before a handle has its pattern. */
static bool stand_alone(fuzzer *f)
{
    bool is_so = true;
    for (int i = 0; i < 3; i++)
        is_so &= has_pattern(f->chains[i].begin, ROOM - sizeof(zarrs_chain));
    return is_so;
}

void before_header(fuzzer *f)
{
    note(f, was);
    before(f);
}

zarrs_chain *before_kept(fuzzer *f, const header *h, int kind)
{
    after(f, h, kind, f->code);
    note(f, left);
    put_back(f, was);
    used = !f->is_kept ? f->none : f->other->is_there && some(f, 2) ? f->other : f->chain;
    held = *used;
    before(f);
    return used;
}

uint32_t after_kept(fuzzer *f, const header *h, int kind, uint32_t code)
{
    allocations_left = -1;
    f->kept[kind]++;
    if (!f->is_kept) {
        EXPECT(code == ZARRS_ARGUMENT && !f->none->is_there, "a call over no chain");
        if (kind == EDIT)
            memset(was[WRITTEN - 1], 0, sizeof(size_t)); /* it has made no edit */
        EXPECT(is_as(f, was), "written where no chain is kept");
    } else if (code == ZARRS_OUT_OF_MEMORY) {
        f->refused_memory++;
        EXPECT(was_refused, "ZARRS_OUT_OF_MEMORY where memory wasn't refused");
        EXPECT(kind == EDIT || is_as(f, was), "written where memory is refused");
    } else {
        EXPECT(f->code == ZARRS_OUT_OF_MEMORY || (code == f->code && is_as(f, left)), "another answer over a chain that is kept");
    }
    EXPECT(is_same_handle(&held, used) && stand_alone(f), "a call changes its chain, or what stands before it");
    put_back(f, left);
    return f->code;
}

/* Keeps the chain of a header; the code. Where it isn't made, what was kept stays. */
static uint32_t new_chain(fuzzer *f, const header *h)
{
    uint32_t code = ZARRS_OUT_OF_MEMORY;
    while (code == ZARRS_OUT_OF_MEMORY) {
        lent text = {put(f, f->header, h->text, h->len), h->len};
        zarrs_chain old = *f->chain;
        before(f);
        code = zarrs_chain_new(LENT(text), f->chain);
        after(f, h, KEEP, code);
        EXPECT(memcmp(text.at ? text.at : (uint8_t *)"", h->text, h->len) == 0, "the header was changed");
        EXPECT(code == ZARRS_DONE ? f->chain->is_there : is_same_handle(&old, f->chain), "a chain that isn't made changes what is kept");
    }
    return code;
}

/* Keeps in one what another one keeps, where it keeps something. */
static void share(fuzzer *f, const header *h, zarrs_chain *from, zarrs_chain *to)
{
    uint32_t code = ZARRS_OUT_OF_MEMORY;
    while (code == ZARRS_OUT_OF_MEMORY) {
        zarrs_chain kept = *from, old = *to;
        before(f);
        code = zarrs_chain_share(from, to);
        after(f, h, SHARE, code);
        EXPECT(is_same_handle(&kept, from), "a chain that is shared is changed");
        EXPECT(code == ZARRS_OUT_OF_MEMORY || code == (kept.is_there ? ZARRS_DONE : ZARRS_ARGUMENT), "a chain isn't shared");
        EXPECT(code == ZARRS_DONE ? to->is_there && to->at != from->at : is_same_handle(&old, to), "a chain that isn't shared is kept");
    }
}

static void freed(fuzzer *f, const header *h, zarrs_chain *chain)
{
    zarrs_chain_free(chain);
    EXPECT(!chain->is_there && !chain->at, "what is freed is kept");
}

/* Looks at what is kept of an earlier header, that of the header at hand being refused. */
static void look_kept(fuzzer *f, const header *earlier)
{
    static __thread elements given;
    static __thread value v;
    f->is_kept = true;
    make_elements(f, earlier, earlier->count, &given);
    write_value(f, earlier, ENCODE, true, (lent){0}, NULL, &given, (lent){0}, &v);
    f->is_kept = false;
}

void keep(fuzzer *f, const header *h, uint32_t check)
{
    static __thread header earlier;
    if (some(f, 6) == 0)
        freed(f, h, some(f, 2) ? f->chain : f->other);
    if (some(f, 2) == 0) {
        make_header(f, &earlier);
        new_chain(f, &earlier);
        if (some(f, 2))
            share(f, &earlier, f->chain, f->other);
        if (some(f, 6) == 0)
            freed(f, h, f->chain), freed(f, h, f->chain);
    }
    uint32_t code = new_chain(f, h);
    EXPECT(code == check, "check and a chain that is kept differ");
    if (code != ZARRS_DONE && f->chain->is_there)
        look_kept(f, &earlier);
    f->is_kept = code == ZARRS_DONE && some(f, 12);
    if (code != ZARRS_DONE)
        return;
    if (some(f, 2))
        share(f, h, f->chain, f->other);
    else
        freed(f, h, f->other);
    if (f->other->is_there && some(f, 2)) { /* the one that was shared goes on alone */
        zarrs_chain *first = f->chain;
        f->chain = f->other, f->other = first;
        freed(f, h, f->other);
    }
    if (!f->is_alone && f->chain->is_there && some(f, 3) == 0) {
        int at = (int)some(f, COMMON);
        pthread_mutex_lock(&lock);
        headers[at] = *h;
        share(f, h, f->chain, &common[at]);
        pthread_mutex_unlock(&lock);
    }
}

bool take(fuzzer *f, header *h)
{
    if (f->is_alone || some(f, 2))
        return false;
    int at = (int)some(f, COMMON);
    pthread_mutex_lock(&lock);
    f->is_kept = common[at].is_there;
    if (f->is_kept) {
        *h = headers[at];
        share(f, h, &common[at], f->chain);
    }
    pthread_mutex_unlock(&lock);
    return f->is_kept;
}

/* Threads free what they share at once, but under the thread sanitizer, which doesn't see how the library counts them. */
void let_go(fuzzer *f)
{
#ifdef __SANITIZE_THREAD__
    pthread_mutex_lock(&lock);
#endif
    for (int i = 0; i < 3; i++)
        freed(f, &nothing, (zarrs_chain *[]){f->chain, f->other, f->none}[i]);
    freed(f, &nothing, f->chain);
#ifdef __SANITIZE_THREAD__
    pthread_mutex_unlock(&lock);
#endif
    f->is_kept = false;
}

void let_common_go(void)
{
    for (int i = 0; i < COMMON; i++)
        zarrs_chain_free(&common[i]);
}
