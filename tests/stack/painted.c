#define _GNU_SOURCE

#include "painted.h"

#include <stdint.h>
#include <ucontext.h>

enum { STACK_WORDS = 8192 };

#define PAINT 0x5ca1ab1e5ca1ab1eu

static _Alignas(64) uint64_t painted[STACK_WORDS];
static ucontext_t outside, inside;
static void (*under_way)(void);

static void inside_stack(void)
{
    under_way();
    swapcontext(&inside, &outside);
}

size_t painted_depth(void (*call)(void))
{
    size_t lowest = 0;
    under_way = call;
    for (size_t n = 0; n < STACK_WORDS; n++)
        painted[n] = PAINT;
    getcontext(&inside);
    inside.uc_stack.ss_sp = painted;
    inside.uc_stack.ss_size = sizeof painted;
    inside.uc_link = &outside;
    makecontext(&inside, inside_stack, 0);
    swapcontext(&outside, &inside);
    while (lowest < STACK_WORDS && painted[lowest] == PAINT)
        lowest++;
    return (STACK_WORDS - lowest) * sizeof *painted;
}
