/* The sheet checker, the converter, the salvage run, the writer and the printer of rules as text, and the reader of content models, for hosts in C and C++. Build: `rt lib` in crates/capi_c, and link crates/capi_c/out/libcapi_c.a; or
   `bin/install PREFIX`, and ask `pkg-config --cflags --libs wickpollen`.

   The numbers are those of the table in README.md. In every call the lent areas must not overlap, and each must hold as many bytes as
   its length says; a length of 0 is allowed. Nothing is kept between two calls but what stands in the areas: calls with areas of their own can
   run at the same time.

   The library is for x86-64 and needs of a C library memcpy and memset alone; it allocates nothing, opens nothing and has no variables. Its
   stack is bounded by the sheet's limits: a call of wickpollen_check or wickpollen_run takes at most 25 kB of it, most of them for expressions nested 12 deep, one of wickpollen_salvage 32 kB
   (bench/stack adds them up); wickpollen_write keeps its stores there, some 340 kB with what it calls, wickpollen_models what it has read of a text, some 105 kB, and wickpollen_print the strings
   that it has met, some 95 kB: give a thread that calls these half a megabyte. */
#ifndef WICKPOLLEN_H
#define WICKPOLLEN_H
#include <stddef.h>
#include <stdint.h>

#ifdef __cplusplus
extern "C" {
#endif

/* Tests the rule sheet in sheet[0 .. sheet_len). The answer's low byte is the number, 0 to 10; the rest, answer / 256, is the count of
   the faults. With 8 and 9 the faults stand at the start of the list, four bytes each, and nothing past them is written; with any other
   number the list is as lent. 65536 bytes of list always suffice. */
uint64_t wickpollen_check(const uint8_t *sheet, size_t sheet_len, uint8_t *list, size_t list_len);

static inline unsigned wickpollen_number(uint64_t answer) { return (unsigned)(answer % 256); }
static inline uint64_t wickpollen_count(uint64_t answer) { return answer / 256; }

/* The length of a state: eight attributes, echo, the count of visits, whether the root is closed, the closing number, how many elements are open, and 32 frames of 120
   bytes (docs/DECISIONS.md 5.15). A state of another length is 29, one kept from the time of four attributes too: begin the stream again. */
#define WICKPOLLEN_STATE 3867

/* Writes a fresh state, with which a stream begins, to state[0 .. WICKPOLLEN_STATE) and answers WICKPOLLEN_STATE; the bytes of the area past it are as lent.
   Where the area is shorter it answers 0, and the whole area is as lent. */
uint64_t wickpollen_fresh(uint8_t *state, size_t state_len);

/* Converts a part of a stream by the sheet and answers the number. `ended` is 0 while more is to come, any other number with the last
   part (which may be empty).

   counts points to three numbers.
   counts[0]: how many bytes of the part were taken. Present the others again, in front of what comes next.
   counts[1]: how many bytes were written, at the start of out. Every byte of out past them is as lent.
   counts[2]: the visits since the state was fresh. A call adds at most 130 for each token that it takes. Where the whole
   stream was taken they are exactly twice the nodes of its tree.

     0          the stream has ended and was taken whole: its output is complete.
     16         the part is used up, or only a begun token of it is left: go on with the next part. A CR that is the last byte is begun:
                CR LF and a CR alone are one LF, so it waits for the byte behind it, and is taken where the stream has ended.
     17         the next token's output is longer than the room left: write out what there is and go on; where counts[1] is 0, lend more.
                What one token writes is set by the sheet's programs: seldom over some hundred bytes, and at most 10,444,626, counted by hand
                (an empty tag is two events; an event makes at most 65 visits, whose programs print at most 80,343 bytes each, and echoes a tag of at
                most 18). 65,536 bytes suffice for the sheets in examples/.
     20 to 27, 30   a token was refused: it starts at part[counts[0]]; with 27, where nothing is left of the part, counts[0] is part_len.
                White space counts as a token inside an element that holds text, and inside one that the sheet gives no content (23).
                The output of what came before it stands. Where an earlier refusal is only repeated, counts[0] is 0 and tells nothing.
     1 to 9     the sheet does not pass: see wickpollen_check.
     28, 29     the stream had ended before; the state is none of this sheet's, or state_len is not what wickpollen_fresh answered.

   state[0 .. state_len) holds the state after the part; with 1 to 9, 28, 29, and where an earlier refusal is only repeated, nothing is
   taken or written and every byte of the state is as it was. A state that wickpollen_fresh made, or that any other number
   came with, has one form: what is not in use is 0, so it may be stored, and two of them hold the same exactly when their bytes are
   equal. A call that takes nothing and answers 16 or 17 leaves the bytes of such a state as they were. counts[0] is at most part_len and counts[1] at most out_len.

   The sheet is tested in every call, so a part of some thousand bytes costs much less than as many small ones. */
uint64_t wickpollen_run(const uint8_t *sheet, size_t sheet_len, uint8_t *state, size_t state_len, const uint8_t *part, size_t part_len,
                        uint64_t ended, uint8_t *out, size_t out_len, uint64_t *counts);

/* The salvage run: as wickpollen_run, but for sheets whose start holds any number of one sort of record, a record that is refused with 20 to 25 is dropped with its output, the whole
   state returns to what it was before it, and reading goes on at the next start tag of a record or end tag of the root that is written without white space. A record's output waits in an
   area of its own until its end tag is taken.

   The state has WICKPOLLEN_SALVAGE bytes; wickpollen_salvage_fresh writes a fresh one, as wickpollen_fresh does. Lend the same waiting area, with what it holds, to every call on one state.

   counts points to five numbers.
   counts[0], counts[1]: bytes taken and written, as in wickpollen_run.
   counts[2]: how many stretches were dropped: entries of 24 bytes at the start of report, each the first byte, the last byte (both of the whole stream) and the number, 8 bytes each,
              little-endian. Every byte of report past them is as lent.
   counts[3]: the most bytes that waited at once. Behind what waits still, the area is 0 up to there, and past it as lent.
   counts[4]: the visits, as in wickpollen_run.

   The numbers are those of wickpollen_run, and 34: the sheet is not of that shape (nothing is changed, as with 1 to 9). 17 also where a token's output is longer than what is left of the
   waiting area, or the report has no room for an entry; nothing is lost then: lend more and go on. 27 also where a damaged record is the last and nothing to go on at follows it. */
#define WICKPOLLEN_SALVAGE 4030
uint64_t wickpollen_salvage_fresh(uint8_t *state, size_t state_len);
uint64_t wickpollen_salvage(const uint8_t *sheet, size_t sheet_len, uint8_t *state, size_t state_len, const uint8_t *part, size_t part_len, uint64_t ended, uint8_t *out, size_t out_len,
                            uint8_t *waiting, size_t waiting_len, uint8_t *report, size_t report_len, uint64_t *counts);

/* Writes rules typed as text (the notation: examples/README.md) as a rule sheet. The answer's low byte is the number; the rest, answer / 256, goes with it:

     0    the sheet stands in sheet[0 .. answer / 256), and every byte past it is as lent. It keeps the numbers 1 to 6; whether it passes, wickpollen_check says. 27928 bytes always suffice.
     40   the text is no rule text, and this is the byte at which it cannot go on: some rule text begins with the bytes before it, and none with it too. The text's length where it ends too early.
     41   it is one, but its different tags (64), programs (16384 bytes) or strings (8192) have no room in a sheet; the last byte of the first that has none.
     43   the area is shorter than the sheet; the length needed.

   With any number but 0 the area is as lent. The text may be of any length. */
uint64_t wickpollen_write(const uint8_t *text, size_t text_len, uint8_t *sheet, size_t sheet_len);

/* Prints a rule sheet as text, which wickpollen_write writes as a sheet that is the same by name. The answer as above:

     0        the text stands in text[0 .. answer / 256), and every byte past it is as lent.
     1 to 6   the sheet is none: as wickpollen_check; the rest is 0.
     42       the different strings that its programs print have over 8192 bytes together; the rest is 0.
     43       the area is shorter than the text; the length needed (20971520 bytes suffice).

   With any number but 0 the area is as lent. */
uint64_t wickpollen_print(const uint8_t *sheet, size_t sheet_len, uint8_t *text, size_t text_len);

/* Writes the content models of a DTD as a rule sheet without programs: element declarations, EMPTY, mixed content and groups with their marks, names of at most 15 bytes, and
   white space between them. Names are nonterminals in the order of their first mention, and the first declared element is the start, 0. The answer as above:

     0          the sheet stands in sheet[0 .. answer / 256), and every byte past it is as lent. It keeps the numbers 1 to 6; whether it passes, wickpollen_check says. 3352 bytes always suffice.
     43         the area is shorter than the sheet; the length needed.
     50 to 55   no text of declarations goes on at this byte (the text's length where it ends too early): 50 the content is ANY, 51 an entity, 52 an attribute list, 53 a model of over 32 nodes,
                54 one nested over 12 deep or with over 32 parentheses open, 55 anything else.
     56         over 64 declarations, 64 different names or 256 nodes in all: the > of the first declaration that is too much.

   With any number but 0 the area is as lent. The text may be of any length; wickpollen_print prints the sheet as text, to add the statements. */
uint64_t wickpollen_models(const uint8_t *dtd, size_t dtd_len, uint8_t *sheet, size_t sheet_len);

#ifdef __cplusplus
}
#endif

#endif
