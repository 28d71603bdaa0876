/*
 * A self-test of the link survey on the set itself, for the unit tests of its firmware. It reads no file and takes
 * nothing of the C library; the survey itself takes memcpy and memset. What it expects is what documents 01 and 02 say.
 *
 * It has 204 KB of variables, for eight seats. With LINK_SURVEY_SELF_TEST_ONE_SEAT defined it has 32 KB, and leaves out
 * refusal 23 and the seats that take turns.
 */
#ifndef LINK_SURVEY_SELF_TEST_H
#define LINK_SURVEY_SELF_TEST_H

#include <stdint.h>

/* The numbers of the cases. Cases A to K are 1 to 11; a refusal is 100 and its number, 101 to 123. */
enum link_survey_self_test_case {
    LINK_SURVEY_SELF_TEST_PASSED = 0,
    LINK_SURVEY_SELF_TEST_CASE_A = 1,
    LINK_SURVEY_SELF_TEST_CASE_K = 11,
    LINK_SURVEY_SELF_TEST_REFUSAL = 100,
    LINK_SURVEY_SELF_TEST_REPORT = 201,   /* from the bytes of a file to its report */
    LINK_SURVEY_SELF_TEST_FILE = 202,     /* a file written and read back */
    LINK_SURVEY_SELF_TEST_LINES = 203,    /* the lines of the two handsets */
    LINK_SURVEY_SELF_TEST_PLAN = 204,     /* a tree drawn by the planner */
    LINK_SURVEY_SELF_TEST_RING = 205,     /* a ring, and none */
    LINK_SURVEY_SELF_TEST_ORDER = 206,    /* a lifting order, without pairs and with one */
    LINK_SURVEY_SELF_TEST_DOUBTFUL = 207, /* always, perhaps, never */
    LINK_SURVEY_SELF_TEST_ONE_WAY = 208,  /* the groups of one-way links */
    LINK_SURVEY_SELF_TEST_LIVE = 209,     /* a live table opened, added to, withdrawn from */
    LINK_SURVEY_SELF_TEST_SEATS = 210,    /* two seats that take turns */
    LINK_SURVEY_SELF_TEST_SEAT_LOADS = 211, /* a seat by the other two loads */
    LINK_SURVEY_SELF_TEST_VERSION = 301   /* the archive is for another header */
};

#ifdef __cplusplus
extern "C" {
#endif

/* 0, or the number of the first case that failed. It has variables of its own: one call at a time. */
uint32_t link_survey_self_test(void);

#ifdef __cplusplus
}
#endif

#endif
