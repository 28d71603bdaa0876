/*
 * Link survey: which units and links of a site are weak.
 *
 * From a table of radio links between up to 256 units (up to 1,024 links) the survey works out, in rounds, every
 * single point (a unit whose loss parts the site) and every lone link (one that no ring backs up). "Document 01" is
 * the customer's paper, "document 02" the list of changes to it.
 *
 * Link with libsurvey_c.a, made by `rt lib` in crates/survey_c (x86-64) or by `tools/cross TARGET` (Arm, RISC-V).
 *
 * - Re-entrance: the library has no variables of its own, so calls that share no lent memory may run at the same time.
 * - Stack: allow 80 KiB; the deepest call, link_survey_report, was measured at 62 KiB on x86-64 and at 65 KiB on 64-bit
 *   Arm, link_survey_lifting_order at 36 KiB, link_survey_run at 35 KiB, all others below 31 KiB (by an older kit).
 * - Freestanding use: no heap, no files, no start-up code; of the C library only memcpy and memset are needed.
 * - Processors: a length has 64 bits on every one. Words, levels and bytes are read and written as such, so that no
 *   call depends on the order of bytes in memory; the bytes of a stored state have the order of the processor.
 * - Storing a state: its words may be saved and brought back, but keep a checksum of your own with them, for a changed
 *   bit may leave a state that is kept, and the survey then goes on from what it finds.
 *
 * Common to all functions:
 *
 * - A state and a reply are arrays of the caller's, of the fixed number of words that the declaration says (a compiler
 *   may warn of one that is too short; the library cannot). A slice is a pointer and the number of its elements.
 * - A pointer is never null, not even that of a slice of 0 elements: any aligned address will do there.
 * - Pointers are aligned and valid for all their elements; what a function may write overlaps nothing else that is
 *   lent to the same call; and nobody else touches lent memory during the call. Nothing checks this; within it, no
 *   contents and no length of a slice break a call.
 * - The number that comes back is one of enum link_survey_refusal, LINK_SURVEY_DONE (0) where the call was not refused
 *   (link_survey_report alone gives a number of bytes). A function looks for its refusals in the order in which they
 *   are listed, and gives the first that applies. link_survey_version gives no such number.
 * - On a refusal nothing that was lent is altered. Else only what is listed as altered is; words and bytes past what is
 *   written stay.
 */
#ifndef LINK_SURVEY_H
#define LINK_SURVEY_H

#include <stddef.h>
#include <stdint.h>

/* The number of elements of a slice. Where a size_t has 64 bits, as on x86-64, the calls are those of a size_t. */
typedef uint64_t link_survey_length;

/*
 * The version of these declarations: it grows with each change. 3 has link_survey_read and link_survey_write; 4 has
 * levels: link_survey_load, link_survey_read and link_survey_write take them, and a state has 1,024 words more; 5 has
 * link_survey_foreman_line and link_survey_service_line; 6 has seats: link_survey_seat_load and link_survey_tick; 7 has
 * link_survey_load_stored, and link_survey_load, link_survey_seat_load and link_survey_write refuse with 22; 8 has
 * link_survey_load_planned, and a state has 257 words more; 9 has link_survey_ring, link_survey_lifting_order,
 * link_survey_doubtful, link_survey_one_way and live tables: link_survey_live_open, link_survey_live_add and
 * link_survey_live_withdraw; 10 has link_survey_length in place of size_t, link_survey_version, struct
 * link_survey_turn, which link_survey_tick takes, link_survey_seat_load_stored and link_survey_seat_load_planned.
 */
#define LINK_SURVEY_VERSION 10

/*
 * The words of a state, lent by the caller to every call on a state (all but link_survey_report, link_survey_read,
 * link_survey_write, link_survey_one_way and those of live tables): units, links, the ends of the links (2,048); stage,
 * rounds made in the stage, all rounds, requests; then the tables of the stages, each whole, in the order of
 * crates/words_layout/specs/Layout.antt; the levels of the links (1,024), each as its 16 bits in two's complement, 0
 * past the links after a load; last the parents that the planner drew (256), absent without a plan, and whether a plan
 * was given, any number but 0. Any words are a state. One whose words are out of their bounds is "not kept", and
 * refused with 10 by all calls on a state but the loads. Before the first load the words may hold anything; all zeros
 * are not kept.
 */
#define LINK_SURVEY_STATE_WORDS 12295

/* The limits of a site, and the rounds that no survey exceeds. */
#define LINK_SURVEY_MAX_UNITS 256
#define LINK_SURVEY_MAX_LINKS 1024
#define LINK_SURVEY_MAX_ROUNDS 804

/*
 * The words of a live table, lent by the caller to the three calls of live tables: units, links, the ends of the links
 * (2,048), the levels (1,024), each as its 16 bits in two's complement, and the number of links at each unit (256). Any
 * words are a live table; adding and withdrawing judge them.
 */
#define LINK_SURVEY_LIVE_WORDS 3330

/* The most pairs "this before that" of a lifting order. */
#define LINK_SURVEY_MAX_PAIRS 256

/* The seats of an office. */
#define LINK_SURVEY_SEATS 8

/* The level of a link: its received signal in dBm, from the lowest to the highest. */
#define LINK_SURVEY_LOWEST_LEVEL (-127)
#define LINK_SURVEY_HIGHEST_LEVEL 0

/* The words of each reply. */
#define LINK_SURVEY_STATUS_WORDS 4
#define LINK_SURVEY_UNIT_WORDS 5
#define LINK_SURVEY_LINK_WORDS 3

/* The bytes of a report: of n units and m links, and at most. */
#define LINK_SURVEY_REPORT_BYTES(n, m) (26u + 23u * (n) + 15u * (m))
#define LINK_SURVEY_MAX_REPORT_BYTES 21274

/* The bytes of a survey file as it is written: of m links, and at most. */
#define LINK_SURVEY_FILE_BYTES(m) (18u + 15u * (m))
#define LINK_SURVEY_MAX_FILE_BYTES 15378

/* The bytes of a handset's line, line feed included: the foreman's, and the service line. */
#define LINK_SURVEY_FOREMAN_LINE_BYTES 11
#define LINK_SURVEY_SERVICE_LINE_BYTES 19

/* "Absent": the parent of a root. */
#define LINK_SURVEY_ABSENT 65535

/*
 * The customer's numbers of the refusals (from 15 on document 02's): 1 to 3, 6 and 16 of reading a file, 4 to 9, 15
 * and 16 of loading, opening or writing a table, 17 and 18 of a planner's tree, 22 of loading a fresh table or writing
 * it, 10 to 13 of the calls on a state, 14 of whatever writes to a slice, 15 of marks, 19 and 20 of a lifting order, 21
 * of a withdrawal, 23 of loading a seat. There are no others; take any number but 0 for a refusal.
 */
enum link_survey_refusal {
    LINK_SURVEY_DONE = 0,            /* not refused */
    LINK_SURVEY_FAULTY_LINE = 1,     /* a line of the file is faulty (or a file for a report is above 65,535 bytes) */
    LINK_SURVEY_OUT_OF_ORDER = 2,    /* the lines are not one 01, any number of 02 and 03, one 0F */
    LINK_SURVEY_COUNT_DIFFERS = 3,   /* the 0F line does not give the number of 02 and 03 lines */
    LINK_SURVEY_BAD_UNIT_COUNT = 4,  /* the unit count is 0 or above 256 */
    LINK_SURVEY_ODD_WORDS = 5,       /* the table has an odd number of words */
    LINK_SURVEY_TOO_MANY_LINKS = 6,  /* the table or the file has more than 1,024 links */
    LINK_SURVEY_END_MISSING = 7,     /* an end is no unit */
    LINK_SURVEY_EQUAL_ENDS = 8,      /* a link has equal ends */
    LINK_SURVEY_REPEATED_LINK = 9,   /* two links join the same two units, whichever way round */
    LINK_SURVEY_NOT_KEPT = 10,       /* the state is not kept; of a tick, a loaded seat or the seat last served; of a
                                        live table, a stored number of links is not the count */
    LINK_SURVEY_AT_END = 11,         /* a round or run is wanted of a finished survey, a tick with all seats finished */
    LINK_SURVEY_BEFORE_END = 12,     /* a question or report is wanted before the end */
    LINK_SURVEY_NO_SUCH_NAME = 13,   /* the unit or position does not exist */
    LINK_SURVEY_TOO_SHORT = 14,      /* the slice that is written to is too short */
    LINK_SURVEY_LEVELS_DIFFER = 15,  /* the levels, or the marks, are not as many as the links */
    LINK_SURVEY_LEVEL_OUTSIDE = 16,  /* a level is below -127 or above 0 */
    LINK_SURVEY_PLAN_LENGTH = 17,    /* the parents are not as many as the units */
    LINK_SURVEY_PLAN_NO_TREE = 18,   /* the parents are no tree of the site (link_survey_load_planned) */
    LINK_SURVEY_BAD_PAIRS = 19,      /* more than 256 pairs, an odd number of words, or a pair names no unit */
    LINK_SURVEY_NO_ORDER = 20,       /* no lifting order exists */
    LINK_SURVEY_NO_SUCH_LINK = 21,   /* no link joins the two units of a withdrawal */
    LINK_SURVEY_UNLINKED_UNIT = 22,  /* of two or more units one is the end of no link */
    LINK_SURVEY_NO_SUCH_SEAT = 23    /* the seat is above 7 */
};

/* The stages. */
enum link_survey_stage {
    LINK_SURVEY_STAGE_COLOUR = 1,
    LINK_SURVEY_STAGE_TREE = 2,
    LINK_SURVEY_STAGE_TOUR = 3,
    LINK_SURVEY_STAGE_FIRST_RANKING = 4,
    LINK_SURVEY_STAGE_MARKS = 5,
    LINK_SURVEY_STAGE_SECOND_RANKING = 6,
    LINK_SURVEY_STAGE_LEAST_AND_GREATEST = 7,
    LINK_SURVEY_STAGE_JOINS = 8,
    LINK_SURVEY_STAGE_CLASSES = 9,
    LINK_SURVEY_STAGE_LABELS = 10,
    LINK_SURVEY_STAGE_FINISHED = 11
};

/* Where each value stands in the reply of link_survey_status. */
enum link_survey_status_index {
    LINK_SURVEY_STATUS_STAGE = 0,     /* one of enum link_survey_stage */
    LINK_SURVEY_STATUS_COUNTDOWN = 1, /* the most rounds still to come; 0 only at the end */
    LINK_SURVEY_STATUS_ROUNDS = 2,    /* all rounds made */
    LINK_SURVEY_STATUS_REQUESTS = 3   /* the requests of both rankings */
};

/* Where each value stands in the reply of link_survey_unit. */
enum link_survey_unit_index {
    LINK_SURVEY_UNIT_NUMBER = 0, /* the unit */
    LINK_SURVEY_UNIT_COLOUR = 1, /* the least unit linked up with it, itself included */
    LINK_SURVEY_UNIT_PARENT = 2, /* its parent in the tree; LINK_SURVEY_ABSENT at a root */
    LINK_SURVEY_UNIT_PLACE = 3,  /* its place in the order of the tree */
    LINK_SURVEY_UNIT_SINGLE = 4  /* 1: a single point; else 0 */
};

/* Where each value stands in the reply of link_survey_link. */
enum link_survey_link_index {
    LINK_SURVEY_LINK_POSITION = 0, /* the position */
    LINK_SURVEY_LINK_LABEL = 1,    /* the least position among the links that share a ring with it, itself included */
    LINK_SURVEY_LINK_LONE = 2      /* 1: a lone link; else 0 */
};

/* What link_survey_doubtful says of two links: a ring holds both in no setting, in some but not each, in each. */
enum link_survey_verdict {
    LINK_SURVEY_NEVER = 0,
    LINK_SURVEY_PERHAPS = 1,
    LINK_SURVEY_ALWAYS = 2
};

/* Where each part of a live table begins in its words. */
enum link_survey_live_index {
    LINK_SURVEY_LIVE_UNITS = 0,     /* the number of units */
    LINK_SURVEY_LIVE_LINKS = 1,     /* the number of links */
    LINK_SURVEY_LIVE_ENDS = 2,      /* the ends of link j at 2 * j and 2 * j + 1 from here; past the links 65535 */
    LINK_SURVEY_LIVE_LEVELS = 2050, /* the level of link j at j from here, as its 16 bits; past the links 0 */
    LINK_SURVEY_LIVE_COUNTS = 3074  /* the number of links at unit v, at v from here */
};

/* What the calls rely on, tried by the compiler. */
#if defined(__cplusplus) || (defined(__STDC_VERSION__) && __STDC_VERSION__ >= 202311L)
#define LINK_SURVEY_ASSERT(name, holds) static_assert(holds, #name)
#elif defined(__STDC_VERSION__) && __STDC_VERSION__ >= 201112L
#define LINK_SURVEY_ASSERT(name, holds) _Static_assert(holds, #name)
#else
#define LINK_SURVEY_ASSERT(name, holds) typedef char link_survey_assert_##name[(holds) ? 1 : -1]
#endif

struct link_survey_aligned_word {
    uint8_t byte;
    uint16_t word;
};

LINK_SURVEY_ASSERT(a_word_and_a_level_have_2_bytes, sizeof(uint16_t) == 2 && sizeof(int16_t) == 2);
LINK_SURVEY_ASSERT(a_word_stands_at_an_even_place, offsetof(struct link_survey_aligned_word, word) == 2);
LINK_SURVEY_ASSERT(a_number_has_4_bytes, sizeof(uint32_t) == 4);
LINK_SURVEY_ASSERT(a_length_has_8_bytes, sizeof(link_survey_length) == 8);
LINK_SURVEY_ASSERT(a_length_holds_every_size, sizeof(size_t) <= sizeof(link_survey_length));
LINK_SURVEY_ASSERT(the_largest_report,
                   LINK_SURVEY_REPORT_BYTES(LINK_SURVEY_MAX_UNITS, LINK_SURVEY_MAX_LINKS)
                       == LINK_SURVEY_MAX_REPORT_BYTES);
LINK_SURVEY_ASSERT(the_largest_file, LINK_SURVEY_FILE_BYTES(LINK_SURVEY_MAX_LINKS) == LINK_SURVEY_MAX_FILE_BYTES);
LINK_SURVEY_ASSERT(a_live_table_ends_with_its_counts,
                   LINK_SURVEY_LIVE_WORDS == LINK_SURVEY_LIVE_COUNTS + LINK_SURVEY_MAX_UNITS);

#undef LINK_SURVEY_ASSERT

#ifdef __cplusplus
extern "C" {
#endif

/* The version that the archive was made for: LINK_SURVEY_VERSION of its header. A set compares the two at its start. */
uint32_t link_survey_version(void);

/*
 * The whole work at once: from the bytes of a survey file to what the program prints for it, the report or only the 1E
 * line of the refusal (1, 2, 3, 6, 16, then 4, 7, 8, 9), line feeds included. The file is taken for a stored table. No
 * state is used.
 *
 * in       the file's frames, one a line. More than 65,535 bytes are refusal 1.
 * out      altered: the bytes at its front.
 * returns  the number of bytes written; 0, with nothing written, where out is too short.
 *          LINK_SURVEY_MAX_REPORT_BYTES are always enough.
 */
uint32_t link_survey_report(const uint8_t *in, link_survey_length in_len, uint8_t *out, link_survey_length out_len);

/*
 * Read a survey file into words and levels, for link_survey_load or link_survey_load_stored. No state is used.
 *
 * in       the file's frames, one a line; of any length. A link of kind 02, which has no level, gets the lowest.
 * table    altered: the two ends of each link, 2 words a link, at its front. 2 * LINK_SURVEY_MAX_LINKS words are always
 *          enough.
 * levels   altered: the level of each link, at its front. LINK_SURVEY_MAX_LINKS places are always enough.
 * units    altered: the number of units, as the file says and not judged (link_survey_load does that).
 * links    altered: the number of links. What to load has 2 words and a level for each; units and links are two words.
 * returns  1, 2, 3, 6, 16, 14 (table or levels), or 0.
 */
uint32_t link_survey_read(const uint8_t *in, link_survey_length in_len, uint16_t *table, link_survey_length table_len,
                          int16_t *levels, link_survey_length levels_len, uint16_t *units, uint16_t *links);

/*
 * Write the survey file of a table and its levels, every link as kind 03, line feeds included. The table is judged as a
 * fresh one. No state is used.
 *
 * units    the number of units, 1 to 256.
 * table    the two ends of each link, as for link_survey_load.
 * levels   the level of each link, as for link_survey_load.
 * out      altered: LINK_SURVEY_FILE_BYTES(m) bytes at its front, for the m links of the table.
 * returns  4, 5, 6, 15, 16, 7, 8, 9, 22, 14, or 0.
 */
uint32_t link_survey_write(uint16_t units, const uint16_t *table, link_survey_length table_len, const int16_t *levels,
                           link_survey_length levels_len, uint8_t *out, link_survey_length out_len);

/*
 * Load a fresh table with its levels and begin its survey: stage 1, no round made.
 *
 * state    altered: the state loaded. Its old contents play no part.
 * units    the number of units, 1 to 256.
 * table    the two ends of each link, in either order: 2 words a link. A link's position is its number from 0.
 * levels   the level of each link, LINK_SURVEY_LOWEST_LEVEL to LINK_SURVEY_HIGHEST_LEVEL: as many as there are links.
 * returns  4, 5, 6, 15, 16, 7, 8, 9, 22, or 0.
 */
uint32_t link_survey_load(uint16_t state[LINK_SURVEY_STATE_WORDS], uint16_t units, const uint16_t *table,
                          link_survey_length table_len, const int16_t *levels, link_survey_length levels_len);

/*
 * Load a table that was stored: as link_survey_load, but a unit without a link is no refusal. What is surveyed of a
 * table that both accept is the same.
 *
 * returns  4, 5, 6, 15, 16, 7, 8, 9, or 0.
 */
uint32_t link_survey_load_stored(uint16_t state[LINK_SURVEY_STATE_WORDS], uint16_t units, const uint16_t *table,
                                 link_survey_length table_len, const int16_t *levels, link_survey_length levels_len);

/*
 * Load a fresh table with a tree drawn by the planner, which takes the place of the survey's own: stage 2 takes it over
 * in one round. It changes no label, no lone link and no single point.
 *
 * parents  the parent of each unit, 65535 for none: as many words as there are units. A unit that is the least of those
 *          linked up with it has none; any other's is a neighbour, and its parents lead up to that least unit.
 * returns  4, 5, 6, 15, 16, 7, 8, 9, 17, 18, 22, or 0.
 */
uint32_t link_survey_load_planned(uint16_t state[LINK_SURVEY_STATE_WORDS], uint16_t units, const uint16_t *table,
                                  link_survey_length table_len, const int16_t *levels, link_survey_length levels_len,
                                  const uint16_t *parents, link_survey_length parents_len);

/*
 * Make one round.
 *
 * state    altered: the state after the round.
 * returns  10, 11, or 0.
 */
uint32_t link_survey_round(uint16_t state[LINK_SURVEY_STATE_WORDS]);

/*
 * Make rounds until the survey is finished or the budget is spent. A budget of 0 makes none. LINK_SURVEY_MAX_ROUNDS
 * always come to the end.
 *
 * state    altered: the state after these rounds.
 * budget   the most rounds to make.
 * made     altered: the rounds made (one word).
 * returns  10, 11, or 0.
 */
uint32_t link_survey_run(uint16_t state[LINK_SURVEY_STATE_WORDS], uint16_t budget, uint16_t *made);

/*
 * Where the survey stands.
 *
 * reply    altered: enum link_survey_status_index.
 * returns  10, or 0.
 */
uint32_t link_survey_status(const uint16_t state[LINK_SURVEY_STATE_WORDS], uint16_t reply[LINK_SURVEY_STATUS_WORDS]);

/*
 * The line of the foreman's handset: a frame of kind 20 with the stage as one byte and the countdown, line feed
 * included. At every stage; two surveys of as many units, at the same stage and after as many rounds of it, have equal
 * lines, however their links run.
 *
 * out      altered: LINK_SURVEY_FOREMAN_LINE_BYTES bytes at its front.
 * returns  10, 14, or 0.
 */
uint32_t link_survey_foreman_line(const uint16_t state[LINK_SURVEY_STATE_WORDS], uint8_t *out,
                                  link_survey_length out_len);

/*
 * The line of the service handset: a frame of kind 21 with the stage as one byte, the countdown, all rounds and the
 * requests, as link_survey_status says them, line feed included. At every stage.
 *
 * out      altered: LINK_SURVEY_SERVICE_LINE_BYTES bytes at its front.
 * returns  10, 14, or 0.
 */
uint32_t link_survey_service_line(const uint16_t state[LINK_SURVEY_STATE_WORDS], uint8_t *out,
                                  link_survey_length out_len);

/*
 * What the finished survey says of a unit.
 *
 * unit     its number, from 0.
 * reply    altered: enum link_survey_unit_index.
 * returns  10, 12, 13, or 0.
 */
uint32_t link_survey_unit(const uint16_t state[LINK_SURVEY_STATE_WORDS], uint16_t unit,
                          uint16_t reply[LINK_SURVEY_UNIT_WORDS]);

/*
 * What the finished survey says of a link.
 *
 * position its position in the table, from 0.
 * reply    altered: enum link_survey_link_index.
 * returns  10, 12, 13, or 0.
 */
uint32_t link_survey_link(const uint16_t state[LINK_SURVEY_STATE_WORDS], uint16_t position,
                          uint16_t reply[LINK_SURVEY_LINK_WORDS]);

/*
 * The report of the finished survey, line feeds included.
 *
 * out      altered: LINK_SURVEY_REPORT_BYTES(n, m) bytes at its front, for the n units and m links loaded.
 * returns  10, 12, 14, or 0.
 */
uint32_t link_survey_state_report(const uint16_t state[LINK_SURVEY_STATE_WORDS], uint8_t *out,
                                  link_survey_length out_len);

/*
 * A ring that holds two links of the finished survey: each unit is linked to the next and the last to the first. One
 * position twice asks for a ring through that link. The links are read, and no label.
 *
 * first    the position of a link, from 0.
 * second   that of another, or the same.
 * out      altered: the units of the ring, a word each, at its front: the two ends of the first link, then on along the
 *          ring. It has as many places as the site has units, whichever reply follows.
 * count    altered: the number of units of the ring; 0 where no ring holds both, and then out stays (one word).
 * returns  10, 12, 13, 14, or 0.
 */
uint32_t link_survey_ring(const uint16_t state[LINK_SURVEY_STATE_WORDS], uint16_t first, uint16_t second, uint16_t *out,
                          link_survey_length out_len, uint16_t *count);

/*
 * The order in which the units of the finished survey can be lifted one by one, so that what still stands keeps its way
 * to unit 0, which is lifted last. Read from its end it takes each time the least-numbered unit that may stand next.
 * The links are read, and no label.
 *
 * pairs    two words a pair, "this unit before that one"; at most LINK_SURVEY_MAX_PAIRS pairs.
 * out      altered: the units, a word each, the one to be lifted first in front. It has as many places as the site has
 *          units.
 * returns  10, 12, 14, 19, 20, or 0.
 */
uint32_t link_survey_lifting_order(const uint16_t state[LINK_SURVEY_STATE_WORDS], const uint16_t *pairs,
                                   link_survey_length pairs_len, uint16_t *out, link_survey_length out_len);

/*
 * Whether a ring holds two links of the finished survey however many of the doubtful links are absent. One position
 * twice asks for rings through that link. A doubtful link may be absent itself, so it is never LINK_SURVEY_ALWAYS.
 *
 * first    the position of a link, from 0.
 * second   that of another, or the same.
 * marks    a byte a link, 0 for a sure one and any other for a doubtful one: as many as there are links.
 * verdict  altered: one of enum link_survey_verdict (one word).
 * returns  10, 12, 13, 15, or 0.
 */
uint32_t link_survey_doubtful(const uint16_t state[LINK_SURVEY_STATE_WORDS], uint16_t first, uint16_t second,
                              const uint8_t *marks, link_survey_length marks_len, uint16_t *verdict);

/*
 * One-way links: each unit gets the least number in its strongly connected group, so that two units have the same
 * number exactly when each reaches the other along the links. No state is used.
 *
 * units    the number of units, 1 to 256.
 * table    two words a link: from, to. A link each way is no repeat; the same ordered pair twice is 9.
 * numbers  altered: the number of each unit, a word each, at its front. It has as many places as there are units.
 * passes   altered: the passes that were made, at most as many as there are groups (one word).
 * returns  4, 5, 6, 7, 8, 9, 14, or 0.
 */
uint32_t link_survey_one_way(uint16_t units, const uint16_t *table, link_survey_length table_len, uint16_t *numbers,
                             link_survey_length numbers_len, uint16_t *passes);

/*
 * Live tables: a table of links that changes during the week, with the number of links at each unit. To survey one,
 * load 2 * m words from LINK_SURVEY_LIVE_ENDS on and m levels from LINK_SURVEY_LIVE_LEVELS on (as int16_t) of its
 * units, with m its links. No state is used.
 */

/*
 * Open a live table from load's tables.
 *
 * live     altered: the live table of these links. Its old contents play no part.
 * units    the number of units, 1 to 256.
 * table    the two ends of each link, as for link_survey_load.
 * levels   the level of each link, as for link_survey_load.
 * returns  4, 5, 6, 15, 16, 7, 8, 9, or 0.
 */
uint32_t link_survey_live_open(uint16_t live[LINK_SURVEY_LIVE_WORDS], uint16_t units, const uint16_t *table,
                               link_survey_length table_len, const int16_t *levels, link_survey_length levels_len);

/*
 * Add a link at the end. The live table is judged first, then the link.
 *
 * live     altered: the live table with this link.
 * a, b     its two ends.
 * level    its level.
 * returns  of the live table 4, 6, 16, 7, 8, 9, 10; of the link 6, 16, 7, 8, 9; or 0.
 */
uint32_t link_survey_live_add(uint16_t live[LINK_SURVEY_LIVE_WORDS], uint16_t a, uint16_t b, int16_t level);

/*
 * Withdraw the link that joins two units. The live table is judged first, then the units. Every later link moves down
 * by one position, its ends in their order and its level with it.
 *
 * live     altered: the live table without this link.
 * a, b     its two ends, in either order.
 * returns  of the live table 4, 6, 16, 7, 8, 9, 10; of the units 7, 8, 21; or 0.
 */
uint32_t link_survey_live_withdraw(uint16_t live[LINK_SURVEY_LIVE_WORDS], uint16_t a, uint16_t b);

/*
 * Several sites over one channel. Eight seats, each the words of a state, and a record of whose turn it is: the seat
 * last served. A seat is empty while its unit count (its first word) and its stage are 0: begin with all words of the
 * seats 0 and a turn that no tick has moved, from which the search begins at seat 0:
 *
 *     struct link_survey_turn turn = LINK_SURVEY_FIRST_TURN;
 *
 * Every call on a state takes a seat too: link_survey_status(seats[i], reply).
 */
struct link_survey_turn {
    uint16_t last; /* the seat last served */
};

#define LINK_SURVEY_FIRST_TURN {7}

/*
 * Load a seat with a table and its levels, as link_survey_load loads a state.
 *
 * seats    altered: the words of the one seat. The others stay, and no turn moves.
 * seat     its number, 0 to 7.
 * returns  23, 4, 5, 6, 15, 16, 7, 8, 9, 22, or 0.
 */
uint32_t link_survey_seat_load(uint16_t seats[LINK_SURVEY_SEATS][LINK_SURVEY_STATE_WORDS], uint16_t seat,
                               uint16_t units, const uint16_t *table, link_survey_length table_len,
                               const int16_t *levels, link_survey_length levels_len);

/*
 * The same as link_survey_load_stored loads a state.
 *
 * returns  23, 4, 5, 6, 15, 16, 7, 8, 9, or 0.
 */
uint32_t link_survey_seat_load_stored(uint16_t seats[LINK_SURVEY_SEATS][LINK_SURVEY_STATE_WORDS], uint16_t seat,
                                      uint16_t units, const uint16_t *table, link_survey_length table_len,
                                      const int16_t *levels, link_survey_length levels_len);

/*
 * The same as link_survey_load_planned loads a state.
 *
 * returns  23, 4, 5, 6, 15, 16, 7, 8, 9, 17, 18, 22, or 0.
 */
uint32_t link_survey_seat_load_planned(uint16_t seats[LINK_SURVEY_SEATS][LINK_SURVEY_STATE_WORDS], uint16_t seat,
                                       uint16_t units, const uint16_t *table, link_survey_length table_len,
                                       const int16_t *levels, link_survey_length levels_len, const uint16_t *parents,
                                       link_survey_length parents_len);

/*
 * Give one round to the seat whose turn it is: going round from the one last served, the first that waits. An empty
 * seat counts as finished.
 *
 * turn     altered: the seat that was served.
 * seats    altered: the words of that seat, one round on. The other seven stay.
 * returns  10 (turn->last is above 7, or a loaded seat is not kept), 11 (every seat is finished), or 0.
 */
uint32_t link_survey_tick(struct link_survey_turn *turn,
                          uint16_t seats[LINK_SURVEY_SEATS][LINK_SURVEY_STATE_WORDS]);

#ifdef __cplusplus
}
#endif

#endif
