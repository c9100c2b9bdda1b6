/* A host in C: checks the sheet in a file and writes the number, the count and the fault list in decimal, as the document writes them.
   Build it by examples/build-check. */
#include <stdio.h>

#include "../include/wickpollen.h"

static uint8_t sheet[65536], list[65536]; /* a file that fills the first is longer than any sheet; the second always suffices */

int main(int argc, char **argv) {
    if (argc != 2) {
        fprintf(stderr, "usage: check SHEET\n");
        return 101;
    }
    FILE *file = fopen(argv[1], "rb");
    if (!file) {
        perror(argv[1]);
        return 102;
    }
    size_t length = fread(sheet, 1, sizeof sheet, file);
    if (ferror(file)) {
        perror(argv[1]);
        return 102;
    }
    fclose(file);
    uint64_t answer = wickpollen_check(sheet, length, list, sizeof list);
    unsigned number = wickpollen_number(answer);
    printf("%u, faults: %lu\n", number, (unsigned long)wickpollen_count(answer));
    if (number == 8 || number == 9)
        for (uint64_t i = 0; i < wickpollen_count(answer); i++)
            printf("%u %u %u %u\n", list[4 * i], list[4 * i + 1], list[4 * i + 2], list[4 * i + 3]);
    return (int)number;
}
