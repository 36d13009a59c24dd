/* Saucepebbly: the first answer set of a rule table, and the check of a proposed plan.
 *
 * The table is lent as signed 32-bit words: atoms, aggregates, rules. docs/DEFINITION.md lays it out and says what
 * every result means. A plan is a buffer of at least 256 bytes; byte i - 1 is 1 if atom i is true and 0 if it is false.
 *
 * For all entries:
 * - A length is the number of elements at its pointer. A pointer whose length is 0 may be null. Each pointer is
 *   aligned as its element type asks (4 bytes for words, reports and candidates, 2 for whys and lists, 1 for plans, texts and bytes).
 * - The buffers of one call must not overlap, but for two that are only read (declared const). Nothing else is asked:
 *   every content is allowed, and a call reads and writes only what it is lent.
 * - `lists` and `candidates` are memory that a call works in, SAUCEPEBBLY_LISTS and SAUCEPEBBLY_CANDIDATES elements long
 *   (35,844 and 4,096 bytes) and never null. What they hold before a call does not matter, and nothing is said of what
 *   they hold after it. One pair serves all calls that do not run in parallel.
 * - At most 16,384 words are looked at: with more the table is refused by its length alone.
 * - Nothing is kept but in a session that the caller lends, nothing is allocated, there is no global memory. Calls may
 *   run in parallel.
 * - The library calls memcpy and memset, and nothing else of the C library.
 * - Stack, beside what is lent, in bytes, measured on x86-64 (docs/PERFORMANCE.md): solve 37,640, approve 5,640, list 53,560,
 *   plan 54,664, relax 53,528, open 3,752, pin and unpin next to nothing, read_aspif 5,528, write_aspif 4,312, store 3,752,
 *   restore 3,832; plain 438,536 at 256 choices, one inside the other.
 * - A report that is shorter than what an entry writes there is not written at all. The check leaves it alone on yes and no.
 * - `mode` is SAUCEPEBBLY_OLD (0) or SAUCEPEBBLY_HEAD_CYCLES; any other number is taken as the latter. In the old mode a table with a head
 *   cycle is refused with SAUCEPEBBLY_HEAD_CYCLE. In the other it is not, and the search for a smaller model takes the place of the
 *   foundedness test: its choices are counted among the reported ones and against the same limit, and `whys` is all 0. On a table
 *   without head cycles both modes give the same kind and plan whenever neither meets its limit.
 *
 * Two libraries, for x86-64 Linux: libdock.a (`rt lib` in crates/dock) has saucepebbly_solve and saucepebbly_approve, which the
 * dock runs; libdesk.a (`rt lib` in crates/desk) has all others. A program may link either or both.
 */
#ifndef SAUCEPEBBLY_H
#define SAUCEPEBBLY_H

/* Define this where size_t, int32_t, uint8_t, uint16_t and uint32_t come from elsewhere. */
#ifndef SAUCEPEBBLY_TYPES_GIVEN
#include <stddef.h>
#include <stdint.h>
#endif

#ifdef __cplusplus
extern "C" {
#endif

/* How many elements the lent memory has. */
#define SAUCEPEBBLY_LISTS 17922
#define SAUCEPEBBLY_CANDIDATES 1024
#define SAUCEPEBBLY_WORDS 16384

/* How head cycles are taken. */
enum {
    SAUCEPEBBLY_OLD = 0,        /* they are refused */
    SAUCEPEBBLY_HEAD_CYCLES = 1 /* they are accepted */
};

/* What saucepebbly_solve returns. */
enum {
    SAUCEPEBBLY_ANSWER = 0, /* the plan is written; report: choices, skips, passes */
    SAUCEPEBBLY_NONE = 1,   /* there is no answer set; report: choices, skips, passes */
    SAUCEPEBBLY_LIMIT = 2,  /* one more choice would exceed the limit; report: choices, skips, passes */
    SAUCEPEBBLY_REFUSED = 3 /* the input is refused; report: number, place, 0 */
};

/* What saucepebbly_approve returns; or SAUCEPEBBLY_REFUSED. */
enum {
    SAUCEPEBBLY_YES = 0, /* the plan is an answer set */
    SAUCEPEBBLY_NO = 1   /* it is not */
};

/* What saucepebbly_list returns; or SAUCEPEBBLY_LIMIT or SAUCEPEBBLY_REFUSED. With the first three the report has: listed, choices, skips, passes. */
enum {
    SAUCEPEBBLY_COMPLETE = 0, /* every plan is listed */
    SAUCEPEBBLY_FULL = 1      /* the rows are filled, and there is one plan more */
};

/* What saucepebbly_read_aspif, saucepebbly_write_aspif, saucepebbly_store and saucepebbly_restore return; or SAUCEPEBBLY_REFUSED. */
enum {
    SAUCEPEBBLY_WROTE = 0 /* the words, the text or the bytes are written; report: how many words or bytes, 0 */
};

/* What saucepebbly_open, saucepebbly_pin and saucepebbly_unpin return; or SAUCEPEBBLY_REFUSED. */
enum {
    SAUCEPEBBLY_DONE = 0 /* the session is changed; report: 0, 0 */
};

/* The number of a refusal: report[0] where an entry says SAUCEPEBBLY_REFUSED; report[1] is its place. */
enum {
    SAUCEPEBBLY_TOO_MANY_WORDS = 1,   /* more than 16,384 words; place 0 */
    SAUCEPEBBLY_ABSENT_WORD = 2,      /* a needed word is absent; its index */
    SAUCEPEBBLY_TRAILING_WORDS = 3,   /* words follow the last rule; index of the first */
    SAUCEPEBBLY_COUNT = 4,            /* a count is outside its range; its index */
    SAUCEPEBBLY_NUMBER = 5,           /* an atom or aggregate number is 0 or outside its range; its index */
    SAUCEPEBBLY_DESCENT = 6,          /* a list does not ascend; index of the first member not above the one before */
    SAUCEPEBBLY_QUANTITY = 7,         /* a function, comparison, threshold or value is outside its range; its index */
    SAUCEPEBBLY_HEAD_CYCLE = 8,       /* in the old mode: head cycle; lowest such rule, from 1 */
    SAUCEPEBBLY_AGGREGATE_CYCLE = 9,  /* aggregate cycle; lowest rule with such an arc, from 1 */
    SAUCEPEBBLY_SHORT_PLAN = 10,      /* the plan buffer is shorter than 256 bytes; place 0 */
    SAUCEPEBBLY_PLAN_BYTE = 11,       /* check only: one of the first N bytes is neither 0 nor 1; its index */
    SAUCEPEBBLY_OUTSIDE_SUBSET = 14,  /* aspif: a line outside the subset, or missing; its number, from 1 */
    SAUCEPEBBLY_BEYOND_RANGE = 15,    /* aspif: a number, list or table beyond the ranges; the line's number, from 1 */
    SAUCEPEBBLY_SHORT_BUFFER = 16,    /* the buffer is too short for the whole text, or for all bytes; place 0 */
    SAUCEPEBBLY_PART_ROW = 17,        /* list only: the rows' length is no multiple of 256; place 0 */
    SAUCEPEBBLY_PIN_NUMBER = 20,      /* pin: the atom is 0 or above the table's; place 0 */
    SAUCEPEBBLY_PIN_TWICE = 21,       /* pin: the atom is pinned already, the same way or the other; place 0 */
    SAUCEPEBBLY_PINS_FULL = 22,       /* pin: there are 64 pins; place 0 */
    SAUCEPEBBLY_NO_PIN = 23,          /* unpin: there is no pin; place 0 */
    SAUCEPEBBLY_NAMES_LOST = 24,      /* restore: a name is not empty, and would be lost; place 0 */
    SAUCEPEBBLY_SHORT_WORDS = 25,     /* the buffer for words has fewer than 16,384; place 0 */
    SAUCEPEBBLY_SHORT_LIST = 26       /* relax: the list has fewer places than the table has rules; place 0 */
};

/* Looks for the first answer set with at most `limit` choices. On an answer the bytes of the table's atoms are
 * written to the plan; every other byte, and on any other result the whole plan, keeps its content. The report
 * needs two places; if it has fewer, nothing is written to it. If it has a third place, that gets the greatest number
 * of passes over rules and atoms that any one propagation took; it is at most the number of atoms plus 1, by which a
 * watchdog can be sized.
 *
 * `whys` needs 512 places: atom i's round at 2 * (i - 1), and its rule after it. A true atom of an answer has a
 * round of 1 to the number of atoms, and the number of a rule, from 1, whose body is true, whose only true head
 * atom it is, and whose positive body atoms have smaller rounds. False atoms, atoms above the table's, and all
 * atoms on any other result have 0 and 0. If there are fewer places, as for a caller who does not ask (NULL, 0),
 * nothing is written to it. */
uint32_t saucepebbly_solve(const int32_t *words, size_t words_len, uint32_t mode, uint32_t limit, uint8_t *plan,
                           size_t plan_len, uint32_t *report, size_t report_len, uint16_t *whys, size_t whys_len, uint16_t *lists,
                           uint32_t *candidates);

/* Says whether the plan is an answer set. On a refusal the report gets its number and place. */
uint32_t saucepebbly_approve(const int32_t *words, size_t words_len, uint32_t mode, const uint8_t *plan,
                             size_t plan_len, uint32_t *report, size_t report_len, uint16_t *lists, uint32_t *candidates);

/* The same as saucepebbly_solve by the plain search, which never jumps: one side of a choice after the other. It is for readers and for
 * comparison, not for the dock: it may open many more choices, and it calls itself to the depth of the choices. Refusals, and where neither
 * meets its limit the result and the plan, are those of saucepebbly_solve; the report's skips are 0. */
uint32_t saucepebbly_plain(const int32_t *words, size_t words_len, uint32_t mode, uint32_t limit, uint8_t *plan,
                           size_t plan_len, uint32_t *report, size_t report_len);

/* Lists every plan, the first one first: rows of 256 bytes, one after the other, `rows_len` a multiple of 256 (it may be 0). Byte i - 1 of a row is 1
 * if atom i is true and 0 if it is false; bytes above the table's atoms are 0. Rows past the number listed keep their content, and on a refusal all
 * do. Complete: these are all plans. Full: the rows are filled and there is at least one plan more. Limit: with at most `limit` choices in all no more
 * were found. In each case the rows hold the first plans, in order, each once. The report needs four places: how many plans are listed, choices,
 * skips, passes; of a refusal number, place, 0, 0; if it has fewer, nothing is written to it. A number listed above 4,294,967,295 is reported as
 * that. */
uint32_t saucepebbly_list(const int32_t *words, size_t words_len, uint32_t mode, uint32_t limit, uint8_t *rows,
                          size_t rows_len, uint32_t *report, size_t report_len, uint16_t *lists, uint32_t *candidates);

/* What to give up where no plan exists. The rules that have a head are taken; then the constraints are offered in table order, and each one is kept
 * with which a plan still exists. Answer: the numbers of the dropped rules, from 1, ascending, stand at the front of `dropped`, and the first plan of
 * the rules kept is written as by saucepebbly_solve; report: how many rules are dropped, 0. Putting back any one of them leaves no plan. Where the
 * table has a plan, nothing is dropped. None: the rules with heads alone have no plan. Limit: one of the searches met the limit; each has it for
 * itself. The list has a place for each rule of the table, else SAUCEPEBBLY_SHORT_LIST; the other refusals are those of saucepebbly_solve. Places
 * behind the numbers, and on any other result the whole list and the whole plan, keep their content. There are as many searches as constraints, and
 * one more; with a small limit the call may end with limit where saucepebbly_solve finds a plan: call it after none. */
uint32_t saucepebbly_relax(const int32_t *words, size_t words_len, uint32_t mode, uint32_t limit, uint32_t *dropped,
                           size_t dropped_len, uint8_t *plan, size_t plan_len, uint32_t *report, size_t report_len,
                           uint16_t *lists, uint32_t *candidates);

/* Reads a text in the ASP intermediate format, which begins with the line `asp 1 0 0`: rule statements with a disjunctive head and a normal
 * body or a weight body of positive literals, comments, and the closing 0. The words go to the front of the buffer, which has at least
 * 16,384; the rest of it keeps its content, and on a refusal all of it does. A line's number above 4,294,967,295 is reported as that. */
uint32_t saucepebbly_read_aspif(const uint8_t *text, size_t text_len, int32_t *words, size_t words_len,
                                uint32_t *report, size_t report_len);

/* Writes a table as a text in the ASP intermediate format, at the front of the buffer; the rest of it keeps its content, and on a refusal all
 * of it does. A new atom above the table's stands for each aggregate literal in use. The text's answer sets, restricted to the table's atoms,
 * are the table's, each from exactly one of the text's. Refused as by saucepebbly_solve, without 10; then, if the buffer is too short, by 16. */
uint32_t saucepebbly_write_aspif(const int32_t *words, size_t words_len, uint8_t *text, size_t text_len,
                                 uint32_t *report, size_t report_len, uint16_t *lists);

/* Stores a table as bytes, at the front of the buffer, with empty names; the rest of it keeps its content, and on a refusal all of it does. The form: the
 * same sections in the same order as the words, counts and numbers in two bytes, low byte first, thresholds in four, in two's complement; an aggregate
 * literal is twice its number, plus one if negated; after the number of atoms, for each of them, the length of its name, 0 to 32, and the name's bytes,
 * which may be any. Refused as by saucepebbly_solve, without 10; then, if the buffer is too short, by 16. */
uint32_t saucepebbly_store(const int32_t *words, size_t words_len, uint8_t *bytes, size_t bytes_len, uint32_t *report,
                           size_t report_len, uint16_t *lists);

/* Restores the words from such bytes, at the front of a buffer that has at least 16,384 (else 25, before all); the rest of it keeps its content, and on a
 * refusal all of it does. The bytes are refused with the numbers 2 to 7, from the left, each place the first byte of the number or name in question; then
 * with 3 at the first byte too many, then with 1, 8 and 9, and last of all with 24, if a name is not empty: the words have no room for it. What
 * saucepebbly_store wrote comes back as the same words; and what is restored would be stored as the same bytes. A place above 4,294,967,295 is reported as
 * that. `memory` has SAUCEPEBBLY_WORDS elements (65,536 bytes), aligned to 4, and is treated as `lists` is: the words are judged there before the buffer
 * is touched. */
uint32_t saucepebbly_restore(const uint8_t *bytes, size_t bytes_len, int32_t *words, size_t words_len, uint32_t *report,
                             size_t report_len, int32_t *memory, uint16_t *lists);

/* Sessions. A session keeps a table and at most 64 pins, in memory that the caller lends: SAUCEPEBBLY_SESSION_WORDS words of 32 bits, which are
 * 65,804 bytes, aligned to 4. It has its own copy of the words, so the caller's buffer is free again after saucepebbly_open. What stands in the
 * memory is the library's; it may be copied, and a call on the copy gives what a call on the session would. No content is dangerous: memory of
 * zeros holds no words and no pins, so a plan is refused with SAUCEPEBBLY_ABSENT_WORD, 0; of any other content that no saucepebbly_open made the
 * words are judged at each plan, and pins that would be refused are passed over. */
#define SAUCEPEBBLY_SESSION_WORDS 16451

/* Begins a session with this table, in this mode, and no pins; its plans are made in this mode. The table is refused as saucepebbly_solve refuses it, without SAUCEPEBBLY_SHORT_PLAN; then the
 * session stays as it stood, byte for byte. */
uint32_t saucepebbly_open(const int32_t *words, size_t words_len, uint32_t mode, int32_t *session, uint32_t *report,
                          size_t report_len, uint16_t *lists);

/* Pins an atom: false with the value 0, true with any other. Refused with 20, 21 and 22, tested in that order; then the session stays as it stood. */
uint32_t saucepebbly_pin(int32_t *session, uint32_t atom, uint32_t value, uint32_t *report, size_t report_len);

/* Takes the last pin off. Refused with 23; then the session stays as it stood. */
uint32_t saucepebbly_unpin(int32_t *session, uint32_t *report, size_t report_len);

/* The first answer set of the session's table that agrees with all pins: result, plan, report and whys are told as by saucepebbly_solve, with
 * SAUCEPEBBLY_SHORT_PLAN before all other refusals. The session is not changed. */
uint32_t saucepebbly_plan(const int32_t *session, uint32_t limit, uint8_t *plan, size_t plan_len,
                          uint32_t *report, size_t report_len, uint16_t *whys, size_t whys_len, uint16_t *lists,
                          uint32_t *candidates);

#ifdef __cplusplus
}
#endif

#endif
