/*
 * One call made twice, to the library and to the plain desk, with everything compared that a caller can see:
 * the answer, the whole lent buffer, the bytes around it, and the input.
 */
#ifndef CHECKS_H
#define CHECKS_H

#include "comparison.h"

/* Room for margins, of which one is written. */
enum { MARGINS_ROOM = 4 };

/* The two rules that there are times, steps and lists by: request 3's equations, and the assured times. */
enum rule { PASSING, ASSURED, RULES };

/* The checks of the functions; each gives the plain desk's answer. */
uint8_t check_judge(struct comparison *comparison);
int64_t check_write(struct comparison *comparison, const struct writing *writing, size_t out_len);
int64_t check_write_shared(struct comparison *comparison, const struct writing *writing, size_t out_len);
int64_t check_rewrite(struct comparison *comparison, size_t out_len);
int64_t check_record(struct comparison *comparison, size_t place);
int64_t check_response(struct comparison *comparison, enum rule rule, size_t place);
int64_t check_slack(struct comparison *comparison, size_t place, size_t out_len);
int64_t check_every_time(struct comparison *comparison, size_t out_len);
int64_t check_verdict(struct comparison *comparison);
int64_t check_least_interval(struct comparison *comparison);
int64_t check_next(struct comparison *comparison, enum rule rule, uint32_t after);
int64_t check_list(struct comparison *comparison, enum rule rule, size_t out_len);
int64_t check_replay(struct comparison *comparison, const struct log *log, size_t counts_len);
int64_t check_supplied(struct comparison *comparison, const struct log *record);
int64_t check_grant(struct comparison *comparison, const struct asking *asking, size_t margin_len, int64_t *margin);
int64_t check_mend(struct comparison *comparison, size_t out_len, size_t changes_len);
int64_t check_cores(struct comparison *comparison, uint8_t cores, size_t out_len);
int64_t check_release(struct comparison *comparison, const struct sheet *candidate, uint8_t protected_places);

/* Checks that the library's answer to a request, and its margin, are the expected ones; the plain desk is not asked. */
void check_granting(struct comparison *comparison, const struct asking *asking, int64_t answer, int64_t margin);

/* Checks that the library's step after a choice is the expected one; the plain desk is not asked again. */
void check_step(struct comparison *comparison, enum rule rule, uint32_t after, int64_t expected);

/* Checks that the library's least interval is the expected one; the plain desk is not asked. */
void check_interval(struct comparison *comparison, int64_t expected);

/* How many changes the plain desk listed last. */
uint64_t listed_changes(const struct comparison *comparison);

/* The core of the record at a place that the plain desk wrote last. */
uint8_t core_at(const struct comparison *comparison, size_t place);

/* The choice at an index of the list that the plain desk wrote last. */
uint32_t listed_choice(const struct comparison *comparison, size_t index);

#endif
