/*
 * The measured calls over a built case, and what is printed of them.
 */
#ifndef MEASURE_H
#define MEASURE_H

/*
 * The calls of one kind by the three stores, or of all but the busy lists: the check that one begins with would be counted among the checks. A line for
 * each says how many units they make.
 */
void run_calls(const char *kind, const char *path);

/* Nanoseconds as ratios to the flat array, a line for each of the other stores: the median repetitions, all in this run. */
void print_ratios(const char *path);

/* The words of the wall, and bits per counter: of the whole wall, and of its buckets alone. */
void print_bits(const char *path);

#endif
