/* Calls of the library with what is right and with what is spoilt, by several threads: fuzz SECONDS THREADS SEED [loose].
 *
 * Each buffer ends where no memory is, and is preceded by bytes that nothing may change. Looked at is
 * - that a call changes nothing where it refuses, only what is needed where a buffer is short, and nothing behind its answer;
 * - that what it is given stays, and that it answers the same the second time;
 * - that an allocation that is refused gives ZARRS_OUT_OF_MEMORY, and no other change;
 * - that a header which zarrs_check refuses is refused by each call;
 * - that offsets begin at 0 and end at the bytes' end, and mask bytes are 0 or 1 (not looked at with `loose`);
 * - that decode, encode, read, write, reencode and reads by pieces agree with each other;
 * - that a read of pieces says which bytes it lacks, and is answered in at most three rounds when these are fetched;
 * - that plans of arrays, and parts put into regions and taken out of them, are what plain loops make;
 * - that several selections are read, and several edits made, by one call as by one call each;
 * - that each call over a chain that is kept answers and writes what the call with the header's text does, while other threads
 *   use the same chain and free it; that what is kept stays where a new chain is refused, or isn't shared; and that a call over
 *   none is refused.
 * It prints how many calls there were of each kind, and ends the process at the first fault, whose seed it prints: with one
 * thread, a run that begins with that seed begins with the fault.
 */
#define _GNU_SOURCE
#include "fuzzing.h"
#include <pthread.h>
#include <stdio.h>
#include <stdlib.h>
#include <time.h>

static const char *const KIND_NAMES[] = {"check", "representation", "encode", "decode", "read", "write",
                                         "reencode", "planned_ranges", "read_pieces", "error_name",
                                         "read_many", "edit", "lacking", "chain_new", "chain_share",
                                         "array_plan", "part_put", "part_take"};
static double limit;

static double now(void)
{
    struct timespec t;
    clock_gettime(CLOCK_MONOTONIC, &t);
    return (double)t.tv_sec + 1e-9 * (double)t.tv_nsec;
}

static void *run(void *of)
{
    fuzzer *f = of;
    room *rooms = &f->header;
    for (int i = 0; i < ROOMS; i++)
        rooms[i] = made_room();
    zarrs_chain **chains[] = {&f->chain, &f->other, &f->none};
    for (int i = 0; i < 3; i++) {
        *chains[i] = blank(f, &f->chains[i], sizeof(zarrs_chain));
        **chains[i] = (zarrs_chain){0};
    }
    while (now() < limit) {
        f->begun = f->seed++;
        f->random = f->begun * 0x9E3779B97F4A7C15u | 1;
        turn(f);
        let_go(f);
    }
    return NULL;
}

int main(int count, char **words)
{
    enum { MOST = 64 };
    static fuzzer fuzzers[MOST];
    pthread_t threads[MOST];
    int many = count > 2 ? atoi(words[2]) : 0;
    uint64_t turns = 0, memory = 0;
    if (count < 4 || many < 1 || many > MOST) {
        fprintf(stderr, "fuzz SECONDS THREADS SEED [loose]\n");
        return 2;
    }
    limit = now() + atof(words[1]);
    for (int i = 0; i < many; i++) {
        fuzzers[i].seed = strtoull(words[3], NULL, 10) + (uint64_t)i * 1000000000u;
        fuzzers[i].is_loose = count > 4;
        fuzzers[i].is_alone = many == 1;
        if (pthread_create(&threads[i], NULL, run, &fuzzers[i]))
            return 1;
    }
    for (int i = 0; i < many; i++) {
        pthread_join(threads[i], NULL);
        turns += fuzzers[i].seed - strtoull(words[3], NULL, 10) - (uint64_t)i * 1000000000u;
        memory += fuzzers[i].refused_memory;
    }
    let_common_go();
    for (int kind = 0; kind < KINDS; kind++) {
        uint64_t calls = 0, done = 0, kept = 0;
        for (int i = 0; i < many; i++)
            calls += fuzzers[i].calls[kind], done += fuzzers[i].done[kind], kept += fuzzers[i].kept[kind];
        printf("%-16s %10llu calls, %10llu done", KIND_NAMES[kind], (unsigned long long)calls, (unsigned long long)done);
        printf(kept ? ", %10llu over a chain that is kept\n" : "\n", (unsigned long long)kept);
    }
    printf("%llu turns, %llu calls whose memory was refused, no fault\n", (unsigned long long)turns, (unsigned long long)memory);
    return 0;
}
