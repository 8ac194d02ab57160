/*
 * One mode for each thing that bench/run asks for. Only `build` and `agree` compare the stores; `calls` does nothing but the measured calls.
 */
#define _POSIX_C_SOURCE 200809L

#include "agree.h"
#include "measure.h"

#include <stdio.h>
#include <stdlib.h>
#include <string.h>

static unsigned shape_of(const char *text)
{
    unsigned shape = (unsigned)atoi(text);
    if (shape < 3 || shape > 5)
        abort();
    return shape;
}

int main(int argc, char **argv)
{
    if (argc == 5 && !strcmp(argv[1], "build"))
        build_case(shape_of(argv[2]), wall_named(argv[3]), argv[4]);
    else if (argc == 2 && !strcmp(argv[1], "agree"))
        agree_on_damage();
    else if (argc == 4 && !strcmp(argv[1], "calls"))
        run_calls(argv[2], argv[3]);
    else if (argc == 3 && !strcmp(argv[1], "time"))
        print_ratios(argv[2]);
    else if (argc == 3 && !strcmp(argv[1], "bits"))
        print_bits(argv[2]);
    else {
        fputs("usage: bench build SHAPE light|half|flagged|young|spread FILE | agree | calls KIND FILE | time FILE | bits FILE\n", stderr);
        return 1;
    }
    return 0;
}
