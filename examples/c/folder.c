/* Reads a window of each chunk in a folder, over a chain that is kept: folder FOLDER */
#define _POSIX_C_SOURCE 200809L
#include "zarrs_codecs.h"
#include <dirent.h>
#include <stdio.h>
#include <stdlib.h>
#include <string.h>
#include <sys/stat.h>
#include <unistd.h>

/* Chunks of 3 rows and 4 columns. */
static const char *const HEADER =
    "{\"shape\":[3,4],\"data_type\":\"uint16\",\"fill_value\":\"0000\",\"codecs\":["
    "{\"name\":\"transpose\",\"configuration\":{\"order\":[1,0]}},"
    "{\"name\":\"bytes\",\"configuration\":{\"endian\":\"big\"}},\"crc32c\"]}";

enum { CHUNKS = 3, ELEMENTS = 12, ROOM = 64 };

/* Ends the program with a refusal's name. */
static void accepted(uint32_t code)
{
    char name[ZARRS_NAME_SIZE];
    if (code == ZARRS_DONE)
        return;
    fprintf(stderr, "refused: %s\n", zarrs_name(code, name));
    exit(1);
}

static void done(int is_done, const char *what)
{
    if (is_done)
        return;
    perror(what);
    exit(1);
}

/* Writes chunks into this folder, of the elements 0 to 11, 100 to 111, and so on. */
static void make(zarrs_chain *chain)
{
    for (int chunk = 0; chunk < CHUNKS; chunk++) {
        uint8_t elements[2 * ELEMENTS], value[ROOM];
        char name[16];
        size_t len;
        for (int i = 0; i < ELEMENTS; i++) {
            elements[2 * i] = (uint8_t)(100 * chunk + i);
            elements[2 * i + 1] = 0;
        }
        accepted(zarrs_chain_encode(chain, NULL, 0, NULL, 0, elements, sizeof elements, value, sizeof value, &len));
        sprintf(name, "%d", chunk);
        FILE *file = fopen(name, "wb");
        done(file && fwrite(value, 1, len, file) == len && !fclose(file), name);
    }
}

static int is_chunk(const struct dirent *entry) { return entry->d_name[0] != '.'; }

int main(int count, char **words)
{
    const uint64_t box[] = {1, 2, 2, 2}; /* its start: row 1, column 2; and its shape: 2 by 2 */
    zarrs_chain chain = {0};             /* it keeps none yet */
    struct dirent **entries;
    if (count != 2)
        return 2;
    accepted(zarrs_chain_new((const uint8_t *)HEADER, strlen(HEADER), &chain));
    done(!mkdir(words[1], 0777) && !chdir(words[1]), words[1]);
    make(&chain);

    int found = scandir(".", &entries, is_chunk, alphasort);
    done(found >= 0, words[1]);
    for (int i = 0; i < found; i++) {
        uint8_t value[ROOM], window[8];
        zarrs_sizes sizes;
        FILE *file = fopen(entries[i]->d_name, "rb");
        done(file != NULL, entries[i]->d_name);
        size_t len = fread(value, 1, sizeof value, file);
        fclose(file);
        accepted(zarrs_chain_read(&chain, true, value, len, ZARRS_BOX, box, 4, NULL, 0, NULL, 0,
                                  window, sizeof window, &sizes));
        printf("%s:", entries[i]->d_name);
        for (size_t at = 0; at < sizes.bytes; at += 2)
            printf(" %d", window[at] + 256 * window[at + 1]);
        printf("\n");
        free(entries[i]);
    }
    free(entries);
    zarrs_chain_free(&chain);
    return 0;
}
