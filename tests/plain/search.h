/*
 * What the plain desk searches through: every length in order for the least one, and every choice of fault priorities
 * in order for those that meet some rule.
 */
#ifndef PLAIN_SEARCH_H
#define PLAIN_SEARCH_H

#include "sheet.h"

enum { NO_TIME = 0 };

/* A divided by b, rounded up. */
uint64_t up(uint64_t a, uint64_t b);

/* What a length has to be at least, of a record. */
typedef uint64_t needed_length(const struct table *table, size_t place, uint64_t length);

/* The least length that is at least what is needed, or no time within the limit. */
uint64_t least_length(needed_length *needed, const struct table *table, size_t place, uint64_t limit);

/* Whether a table meets a rule with the fault priorities that it has. */
typedef bool choice_rule(const struct table *table);

/* The first choice of all, in order, that stands after the given one and meets the rule, 0 where there is none, or minus the refusal 13. */
int64_t search_next(struct table *table, choice_rule *meets, uint32_t after);

/* Writes every choice of all that meets the rule, in order, and gives their number, or minus the refusal 11. */
int64_t search_list(struct table *table, choice_rule *meets, uint8_t *out, size_t out_len);

#endif
