/* The sheets that are measured. */
#include "sheets.h"

/* A sheet of an ordinary kind: load 0.27 without faults, and every choice of fault priorities passes. */
const struct sheet everyday = {8, 350, {
    110,  70, 1770, 2000, 1, 1,
     40, 115, 1330, 1600, 2, 1,
     25,  60,  960, 1200, 3, 1,
     20,  45,  900, 1000, 4, 2,
     15,  60,  800,  800, 5, 2,
     10,  45,  560,  600, 6, 3,
     20,  25,  390,  400, 7, 7,
     20,  10,  300,  300, 8, 7,
}};

/* The everyday sheet with a lowest task that is late under every choice, in the first record. */
const struct sheet lowest_late_first = {8, 350, {
    110,  70,  250, 2000, 1, 1,
     40, 115, 1330, 1600, 2, 1,
     25,  60,  960, 1200, 3, 1,
     20,  45,  900, 1000, 4, 2,
     15,  60,  800,  800, 5, 2,
     10,  45,  560,  600, 6, 3,
     20,  25,  390,  400, 7, 7,
     20,  10,  300,  300, 8, 7,
}};

/* The same with its records in the opposite order. */
const struct sheet lowest_late_last = {8, 350, {
     20,  10,  300,  300, 8, 7,
     20,  25,  390,  400, 7, 7,
     10,  45,  560,  600, 6, 3,
     15,  60,  800,  800, 5, 2,
     20,  45,  900, 1000, 4, 2,
     25,  60,  960, 1200, 3, 1,
     40, 115, 1330, 1600, 2, 1,
    110,  70,  250, 2000, 1, 1,
}};

/* A fault at every tick: the first record, struck itself, gains one tick a step until it is late at 65535. */
const struct sheet slow_response = {8, 1, {
    1, 1, 65535, 65535, 7, 6,
    1, 1, 65535, 65535, 8, 1,
    1, 1, 65535, 65535, 6, 1,
    1, 1, 65535, 65535, 5, 1,
    1, 1, 65535, 65535, 4, 1,
    1, 1, 65535, 65535, 3, 1,
    1, 1, 65535, 65535, 2, 1,
    1, 1, 65535, 65535, 1, 1,
}};

/* Short jobs and many faults: long climbs by one or two ticks before a record is late. */
const struct sheet slow_verdict = {8, 14, {
    1, 2, 65531, 65531, 3, 1,
    2, 2,     5,     5, 8, 8,
    2, 2,     9,     9, 7, 7,
    1, 2, 65527, 65527, 1, 1,
    3, 2,    44,    44, 6, 6,
    1, 2, 65530, 65530, 2, 2,
    1, 2, 65535, 65535, 4, 1,
    1, 1,     6,     6, 5, 3,
}};

/* No interval passes, and at most of them long climbs come first; deadlines to 300 keep it to seconds. */
const struct sheet slow_interval = {8, 67, {
    2, 3,     8,     8, 6, 6,
    4, 3,   296,   296, 3, 1,
    1, 4,   291,   291, 2, 2,
    1, 3,   300,   300, 1, 1,
    1, 2,     5,     5, 7, 7,
    4, 4,    19,    19, 5, 4,
    1, 3,     4,     4, 4, 4,
    1, 4,    20,    20, 8, 5,
}};

/*
 * Nearly all of the processor is taken above the first record, which under each choice climbs by a few ticks a step
 * before it is late; the lowest task is on time.
 */
const struct sheet slow_steps = {6, 65535, {
    1, 2, 47753, 65535, 2, 1,
    1, 1,     2,     2, 6, 1,
    1, 1,     3,     3, 5, 1,
    1, 1,     7,     7, 4, 1,
    9, 1,   379,   379, 3, 1,
    1, 1, 65535, 65535, 1, 1,
}};

/* The same with eight tasks, and so with more choices; deadlines to 300 keep it to seconds. */
const struct sheet slow_choices = {8, 300, {
    1, 2,   281,   300, 2, 1,
    1, 1,     2,     2, 8, 1,
    1, 1,     3,     3, 7, 1,
    1, 1,    11,    11, 6, 1,
    1, 1,    43,    43, 5, 1,
    1, 1,    49,    49, 4, 1,
    1, 1,    59,    59, 3, 1,
    1, 1,   300,   300, 1, 1,
}};
