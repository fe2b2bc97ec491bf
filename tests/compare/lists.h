/* Steps from choice to choice and lists of choices, by the rule that they are asked by. */
#ifndef LISTS_H
#define LISTS_H

#include "tally.h"

/* Asks for a time, steps and lists, which a refused sheet has to be refused by, whatever place, choice and room are given. */
void check_refused_by(struct comparison *comparison, enum rule rule);

/* Steps from allowed choices and from each kind of choice that is not allowed. */
void check_steps(struct comparison *comparison, enum rule rule, const struct draft *draft);

/* Lists the choices into outputs too long, just long enough and too short, and walks along the list. */
void check_lists(struct comparison *comparison, struct tally *tally, enum rule rule, const struct draft *draft);

#endif
