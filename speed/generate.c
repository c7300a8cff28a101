/*
 * generate R n S N SEED: writes a script of N events for `ringrun`, all of them accepted. Threads put frames and take them in random
 * order, the lines that they await are written back, other lines now and then, and a cut comes about once in 20,000 events and whenever
 * a put has closed the ring.
 */
#include "ring.h"

#include <inttypes.h>
#include <stdio.h>
#include <stdlib.h>

static struct ring ring;
static struct found found;
static uint64_t state;

/* A random number below the limit (splitmix64). */
static uint32_t below(uint32_t limit)
{
    uint64_t z = state += UINT64_C(0x9e3779b97f4a7c15);
    z = (z ^ z >> 30) * UINT64_C(0xbf58476d1ce4e5b9);
    z = (z ^ z >> 27) * UINT64_C(0x94d049bb133111eb);
    return (uint32_t)((z ^ z >> 31) % limit);
}

/* Whether one more put finds room when those that have yet to draw have drawn. A put that finds none closes the ring. */
static bool has_room(void)
{
    uint32_t tail = ring.running.tail;
    for (uint32_t t = 0; t < ring.threads; t++)
        tail += ring.thread[t].place == P1;
    return tail < ring.head + ring.cells;
}

static struct answer cell_back(uint32_t j)
{
    printf("back cell %" PRIu32 "\n", j);
    return back_cell(&ring, j);
}

static struct answer copy_back(uint32_t t)
{
    printf("back copy %" PRIu32 "\n", t);
    return back_copy(&ring, t);
}

/* Any line. Tail isn't called for by puts and takes that go well. */
static struct answer any_back(void)
{
    uint32_t line = below(ring.cells + ring.threads + 1);
    if (line < ring.cells)
        return cell_back(line);
    if (line < ring.cells + ring.threads)
        return copy_back(line - ring.cells);
    printf("back tail\n");
    return back_tail(&ring);
}

static struct answer begin(uint32_t t)
{
    static uint32_t frame;
    if (has_room() && below(2) == 0) {
        printf("put %" PRIu32 " %" PRIu32 "\n", t, ++frame);
        return put(&ring, t, frame);
    }
    printf("take %" PRIu32 "\n", t);
    return take(&ring, t);
}

static struct answer next(void)
{
    /* A cut before Tail is written back opens a closed ring again: were it kept, every put from then on would be told CLOSED. */
    if (ring.running.closed || below(20000) == 0) {
        printf("cut\n");
        return cut(&ring, &found);
    }
    if (below(50) == 0)
        return any_back();
    uint32_t t = below(ring.threads);
    uint32_t line = ring.thread[t].line;
    if (ring.thread[t].place == IDLE)
        return begin(t);
    if (line == NONE || below(4) == 0) {
        printf("go %" PRIu32 "\n", t);
        return go(&ring, t);
    }
    return line < COPY ? cell_back(line - CELL) : copy_back(line - COPY);
}

int main(int count, char **words)
{
    uint32_t number[5];
    if (count != 6) {
        fprintf(stderr, "usage: generate R n S N SEED\n");
        return EXIT_FAILURE;
    }
    for (int i = 0; i < 5; i++)
        number[i] = (uint32_t)strtoul(words[i + 1], NULL, 10);
    if (number[0] - 1 >= CELLS || number[1] - 1 >= THREADS || number[2] - 1 >= TRIES || number[3] > EVENTS) {
        fprintf(stderr, "generate: R, n, S or N is out of range\n");
        return EXIT_FAILURE;
    }
    fresh(&ring, number[0], number[1], number[2]);
    state = number[4];
    printf("ring %" PRIu32 " %" PRIu32 " %" PRIu32 "\n", ring.cells, ring.threads, ring.tries);
    while (ring.events < number[3]) {
        uint32_t said = next().said;
        if (said != NOTHING && said < OK) {
            fprintf(stderr, "generate: event %" PRIu32 " is refused with %" PRIu32 "\n", ring.events + 1, said);
            return EXIT_FAILURE;
        }
    }
    return fflush(stdout) == 0 && !ferror(stdout) ? EXIT_SUCCESS : EXIT_FAILURE;
}
