/* Encodes a chunk of 3 rows and 4 columns, and reads a window of its value. */
#include "zarrs_codecs.h"
#include <stdio.h>
#include <stdlib.h>
#include <string.h>

static const char *const HEADER =
    "{\"shape\":[3,4],\"data_type\":\"uint16\",\"fill_value\":\"0000\",\"codecs\":["
    "{\"name\":\"transpose\",\"configuration\":{\"order\":[1,0]}},"
    "{\"name\":\"bytes\",\"configuration\":{\"endian\":\"big\"}}]}";

/* Ends the program with a refusal's name. */
static void accepted(uint32_t code)
{
    char name[ZARRS_NAME_SIZE];
    if (code == ZARRS_DONE)
        return;
    fprintf(stderr, "refused: %s\n", zarrs_name(code, name));
    exit(1);
}

int main(void)
{
    const uint8_t *header = (const uint8_t *)HEADER;
    size_t header_len = strlen(HEADER), value_len;
    uint8_t elements[24] = {0}, value[24], window[8];
    const uint64_t box[] = {1, 2, 2, 2}; /* its start: row 1, column 2; and its shape: 2 by 2 */
    zarrs_sizes sizes;

    for (int i = 0; i < 12; i++)
        elements[2 * i] = (uint8_t)i; /* row by row, the lowest byte first */
    accepted(zarrs_encode(header, header_len, NULL, 0, NULL, 0, elements, sizeof elements,
                          value, sizeof value, &value_len));
    printf("value:");
    for (size_t i = 0; i < value_len; i++)
        printf(" %02x", value[i]);

    accepted(zarrs_read(header, header_len, true, value, value_len, ZARRS_BOX, box, 4,
                        NULL, 0, NULL, 0, window, sizeof window, &sizes));
    printf("\nwindow:");
    for (size_t i = 0; i < sizes.bytes; i += 2)
        printf(" %d", window[i] + 256 * window[i + 1]);
    printf("\n");
    return 0;
}
