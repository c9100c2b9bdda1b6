/* Calls the proved library for the test program: a request on standard input, an answer on standard output, until the input ends.
   Every lent area ends where unmapped memory begins, so a read or a write past it ends the driver; what the library may only read is
   mapped so; and canaries stand before each area.

   A request: nine numbers (function, lengths of sheet, list or state, part, output, waiting area and report, "ended", the fill), 8 bytes each,
   then the bytes of sheet, state (of a run), part and waiting area. The lent list, output, report and fresh state are filled with the fill.
   An answer: eleven numbers (the function's answer, the five counts, 1 if a canary is broken, the lengths of what follows), then the
   list or state, the output, the waiting area and the report, each without the fill at its end. */
#include "../../../include/wickpollen.h"
#include "system.h"

enum { AREA = 1 << 18, GUARD = 1 << 16, CANARY = 64, CANARY_BYTE = 0xC5 };
enum { CHECK = 1, FRESH = 2, RUN = 3, SALVAGE_FRESH = 4, SALVAGE = 5, MODELS = 6 };

/* One lent area: `end` is where unmapped memory begins. */
struct area { uint8_t *end; };
static struct area sheet, list_or_state, part, output, waiting, report, counts;
static uint8_t answer[4 * AREA];

static void protect(struct area *a, int protection) { system_call(MPROTECT, (long)(a->end - AREA), AREA, protection, 0, 0, 0); }

static void make(struct area *a) {
    long start = system_call(MMAP, 0, AREA + GUARD, 3, 0x22, -1, 0); /* read and write; private and anonymous */
    a->end = (uint8_t *)start + AREA;
    system_call(MPROTECT, (long)a->end, GUARD, 0, 0, 0, 0);
}

static uint8_t *lend(struct area *a, uint64_t length) {
    uint8_t *start = a->end - length;
    for (int i = 1; i <= CANARY; i++) start[-i] = CANARY_BYTE;
    return start;
}

static uint64_t broken(struct area *a, uint64_t length) {
    uint8_t *start = a->end - length;
    for (int i = 1; i <= CANARY; i++)
        if (start[-i] != CANARY_BYTE) return 1;
    return 0;
}

static void fill(uint8_t *at, uint64_t length, uint8_t byte) {
    for (uint64_t i = 0; i < length; i++) at[i] = byte;
}

static void get(void *to, uint64_t length) {
    uint8_t *at = to;
    while (length > 0) {
        long got = system_call(READ, 0, (long)at, (long)length, 0, 0, 0);
        if (got <= 0) system_call(EXIT, got < 0, 0, 0, 0, 0, 0);
        at += got;
        length -= (uint64_t)got;
    }
}

static void put(uint8_t *at, uint64_t length) {
    while (length > 0) {
        long written = system_call(WRITE, 1, (long)at, (long)length, 0, 0, 0);
        if (written <= 0) system_call(EXIT, 1, 0, 0, 0, 0, 0);
        at += written;
        length -= (uint64_t)written;
    }
}

/* Adds an area to the answer, without the fill at its end, and says how long that is. */
static uint64_t show(uint64_t at, const uint8_t *from, uint64_t length, uint8_t byte) {
    while (length > 0 && from[length - 1] == byte) length--;
    for (uint64_t i = 0; i < length; i++) answer[at + i] = from[i];
    return length;
}

static void serve_one(void) {
    uint64_t ask[9], say[11] = {0};
    get(ask, sizeof ask);
    uint64_t function = ask[0], sheet_length = ask[1], lent_length = ask[2], part_length = ask[3], output_length = ask[4];
    uint64_t waiting_length = ask[5], report_length = ask[6], ended = ask[7];
    uint8_t byte = (uint8_t)ask[8];
    uint8_t *s = lend(&sheet, sheet_length), *l = lend(&list_or_state, lent_length), *p = lend(&part, part_length);
    uint8_t *o = lend(&output, output_length), *w = lend(&waiting, waiting_length), *r = lend(&report, report_length);
    uint64_t *c = (uint64_t *)lend(&counts, 40);
    get(s, sheet_length);
    if (function == RUN || function == SALVAGE) get(l, lent_length); else fill(l, lent_length, byte);
    get(p, part_length);
    get(w, waiting_length);
    fill(o, output_length, byte);
    fill(r, report_length, byte);
    protect(&sheet, 1);
    protect(&part, 1);
    if (function == CHECK) say[0] = wickpollen_check(s, sheet_length, l, lent_length);
    for (int i = 0; i < 5; i++) c[i] = 0x5A5A5A5A5A5A5A5A;
    if (function == FRESH) say[0] = wickpollen_fresh(l, lent_length);
    if (function == RUN) say[0] = wickpollen_run(s, sheet_length, l, lent_length, p, part_length, ended, o, output_length, c);
    if (function == SALVAGE_FRESH) say[0] = wickpollen_salvage_fresh(l, lent_length);
    if (function == SALVAGE)
        say[0] = wickpollen_salvage(s, sheet_length, l, lent_length, p, part_length, ended, o, output_length, w, waiting_length, r, report_length, c);
    if (function == MODELS) say[0] = wickpollen_models(p, part_length, o, output_length);
    for (int i = 0; i < 5; i++) say[1 + i] = c[i];
    say[6] = broken(&sheet, sheet_length) | broken(&list_or_state, lent_length) | broken(&part, part_length)
        | broken(&output, output_length) | broken(&waiting, waiting_length) | broken(&report, report_length) | broken(&counts, 40);
    protect(&sheet, 3);
    protect(&part, 3);
    uint64_t end = sizeof say;
    end += say[7] = show(end, l, lent_length, byte);
    end += say[8] = show(end, o, output_length, byte);
    end += say[9] = show(end, w, waiting_length, byte);
    end += say[10] = show(end, r, report_length, byte);
    for (int i = 0; i < (int)sizeof say; i++) answer[i] = ((uint8_t *)say)[i];
    put(answer, end);
}

void serve(void) {
    make(&sheet), make(&list_or_state), make(&part), make(&output), make(&waiting), make(&report), make(&counts);
    for (;;) serve_one();
}
