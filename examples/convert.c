/* A host in C: converts a schedule by a sheet, from standard input to standard output, in parts of bounded memory. The exit status is the
   number; what was written before a refusal is not a whole listing, so the caller keeps it only at 0. Build it by examples/build-convert. */
#include <stdio.h>
#include <string.h>

#include "../include/wickpollen.h"

static uint8_t sheet[65536], state[WICKPOLLEN_STATE], part[65536], out[65536];

static int trouble(const char *what) {
    perror(what);
    return 102;
}

int main(int argc, char **argv) {
    if (argc != 2) {
        fprintf(stderr, "usage: convert SHEET <SCHEDULE >LISTING\n");
        return 101;
    }
    FILE *file = fopen(argv[1], "rb");
    if (!file) return trouble(argv[1]);
    size_t sheet_len = fread(sheet, 1, sizeof sheet, file);
    if (ferror(file)) return trouble(argv[1]);
    fclose(file);

    uint64_t state_len = wickpollen_fresh(state, sizeof state), number, counts[3], offset = 0;
    size_t held = 0; /* bytes of the part that are not taken yet: a begun token, or what the room was too short for */
    do {
        held += fread(part + held, 1, sizeof part - held, stdin);
        if (ferror(stdin)) return trouble("standard input");
        number = wickpollen_run(sheet, sheet_len, state, state_len, part, held, feof(stdin) != 0, out, sizeof out, counts);
        if (fwrite(out, 1, counts[1], stdout) != counts[1]) return trouble("standard output");
        held -= counts[0];
        offset += counts[0];
        memmove(part, part + counts[0], held);
    } while (number == 16 || (number == 17 && counts[1] > 0));
    if (fflush(stdout) != 0) return trouble("standard output");
    fprintf(stderr, "number %u after %llu bytes, %llu visits\n", (unsigned)number, (unsigned long long)offset, (unsigned long long)counts[2]);
    return (int)number;
}
