// What work costs on the two sides, and the rows in which that is printed (measure.c).
#pragma once
#include "plain.h"

// A piece of work, done so many times over.
typedef void task(void *what, usize times);
struct work { task *c, *proved; void *what; };
struct cost { double c, proved; };

// What each of the works costs, done once. They take turns, so that a slow spell of the machine falls on all of them.
void costs_of(const struct work *w, int works, struct cost *cost);
void print_head(const char *what);
void print_row(const char *name, struct cost x);

// How often a record stands in a day of which the cost is that of the day without it, and something more.
extern const int MANY;

// Of a task done once: the copies of 2 KiB or more (copies.c), or the instructions (instructions.c).
u64 count_of(task *t, void *what);
