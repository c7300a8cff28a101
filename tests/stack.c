/* Prints how many bytes of stack a call of the exported recovery uses, return addresses included: it is made on a stack of its own that was filled before. */
#define _XOPEN_SOURCE 700
#include "winterbeam.h"

#include <stdio.h>
#include <stdlib.h>
#include <string.h>
#include <ucontext.h>

enum { SIZE = 1 << 16, FILL = 0xa5 };

static uint8_t stack[SIZE];
static uint8_t image[WINTERBEAM_MOST_BYTES];
static ucontext_t outside, inside;
static uint8_t *start;
static uint32_t result;

static void call(void)
{
    uint8_t here;
    start = &here;
    result = winterbeam_recover(WINTERBEAM_CELLS, WINTERBEAM_THREADS, WINTERBEAM_TRIES, WINTERBEAM_EVENTS, image, sizeof image);
}

int main(void)
{
    /* every second cell has an item, and half of these are below the pass mark */
    for (size_t j = 0; j < WINTERBEAM_CELLS; j++) {
        image[16 * j + 4] = (uint8_t)j;
        image[16 * j + 8] = (uint8_t)(j % 2);
    }
    image[12] = WINTERBEAM_CELLS / 2;
    memset(stack, FILL, sizeof stack);
    if (getcontext(&inside) != 0)
        return EXIT_FAILURE;
    inside.uc_stack.ss_sp = stack;
    inside.uc_stack.ss_size = sizeof stack;
    inside.uc_link = &outside;
    makecontext(&inside, call, 0);
    if (swapcontext(&outside, &inside) != 0 || result != WINTERBEAM_RECOVERED)
        return EXIT_FAILURE;
    const uint8_t *last = stack;
    while (*last == FILL)
        last++;
    printf("%zu\n", (size_t)(start - last));
    return EXIT_SUCCESS;
}
