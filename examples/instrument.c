/*
 * A small instrument that queues frame numbers through a power cut.
 *
 *   instrument work FILE      makes a fresh ring in FILE, puts and takes frames, and loses power in the middle of a put
 *   instrument recover FILE   power is back: recovers the ring in FILE and prints what is queued, first in, first out
 *
 * FILE plays the memory that survives a cut, the array `running` the caches in front of it. One thread puts and takes, so a
 * put needs no second try and a take finds what it looks for.
 */
#include "winterbeam.h"

#include <inttypes.h>
#include <stdio.h>
#include <stdlib.h>
#include <string.h>

enum { CELLS = 4, THREADS = 1, TRIES = 16 };
enum { SAFE, INDEX, ITEM, MARK };                          /* the numbers of a cell */
enum { COPY = 4 * CELLS, CLOSED = COPY + THREADS, TAIL };  /* the numbers after the cells */

#define BYTES WINTERBEAM_BYTES(CELLS, THREADS)

static uint8_t running[BYTES];
static uint32_t head;
static FILE *kept;

static void stop(const char *what)
{
    fprintf(stderr, "instrument: %s\n", what);
    exit(EXIT_FAILURE);
}

/* Number `at` of an image, four bytes, low byte first. */
static uint32_t get(const uint8_t *image, size_t at)
{
    const uint8_t *b = image + 4 * at;
    return (uint32_t)b[0] | (uint32_t)b[1] << 8 | (uint32_t)b[2] << 16 | (uint32_t)b[3] << 24;
}

static void set(uint8_t *image, size_t at, uint32_t number)
{
    for (size_t i = 0; i < 4; i++)
        image[4 * at + i] = (uint8_t)(number >> (8 * i));
}

static size_t cell_of(uint32_t number)
{
    return 4 * (size_t)(number % CELLS);
}

/* Writes numbers back: only now do they survive a cut. */
static void write_back(size_t at, size_t count)
{
    if (fseek(kept, (long)(4 * at), SEEK_SET) != 0 || fwrite(running + 4 * at, 4, count, kept) != count || fflush(kept) != 0)
        stop("the kept image can't be written");
}

/* A fresh ring: cell j is (1, j, 0, 0), all else zero. */
static void set_up(void)
{
    memset(running, 0, sizeof running);
    for (uint32_t j = 0; j < CELLS; j++) {
        set(running, 4 * j + SAFE, 1);
        set(running, 4 * j + INDEX, j);
    }
    head = 0;
    write_back(0, BYTES / 4);
}

/* Draws a number and lands the frame in its cell. It is not confirmed before the cell is written back. */
static uint32_t land(uint32_t frame)
{
    uint32_t number = get(running, TAIL);
    size_t cell = cell_of(number);
    set(running, TAIL, number + 1);
    if (get(running, cell + ITEM) != 0)
        stop("the ring is full");
    set(running, cell + SAFE, 1);
    set(running, cell + INDEX, number);
    set(running, cell + ITEM, frame);
    return number;
}

static void put(uint32_t frame)
{
    uint32_t number = land(frame);
    write_back(cell_of(number), 4);
    printf("confirmed %" PRIu32 " as number %" PRIu32 "\n", frame, number);
}

/* Takes the frame at Head. Its cell is not written back, only the copy: recovery knows by the copy that the number is passed. */
static void take(void)
{
    uint32_t number = head++;
    size_t cell = cell_of(number);
    uint32_t frame = get(running, cell + ITEM);
    if (frame == 0 || get(running, cell + INDEX) != number)
        stop("the ring is empty");
    set(running, cell + INDEX, number + CELLS);
    set(running, cell + ITEM, 0);
    set(running, cell + MARK, number + 1);
    set(running, COPY, number + 1);
    write_back(COPY, 1);
    printf("handed out %" PRIu32 "\n", frame);
}

static void work(const char *file)
{
    kept = fopen(file, "wb");
    if (kept == NULL)
        stop("the kept image can't be made");
    set_up();
    put(711);
    put(712);
    put(713);
    take();
    land(714);
    printf("714 has landed and isn't written back: the power goes\n");
    fflush(stdout);
    _Exit(EXIT_SUCCESS); /* nothing is tidied up */
}

static void recover(const char *file)
{
    uint8_t image[BYTES];
    kept = fopen(file, "r+b");
    if (kept == NULL)
        stop("there is no kept image");
    size_t length = fread(image, 1, sizeof image, kept);

    /* How many events there were is lost too. The largest count will do. */
    uint32_t refusal = winterbeam_recover(CELLS, THREADS, TRIES, WINTERBEAM_EVENTS, image, length);
    if (refusal != WINTERBEAM_RECOVERED) {
        printf("refused %" PRIu32 "\n", refusal);
        exit(EXIT_FAILURE);
    }
    memcpy(running, image, sizeof running);
    write_back(0, BYTES / 4);

    uint32_t tail = get(image, TAIL);
    head = get(image, COPY);
    printf("recovered: Head %" PRIu32 ", Tail %" PRIu32 ", %s\n", head, tail, get(image, CLOSED) == 0 ? "open" : "closed");
    for (uint32_t number = head; number < tail; number++) {
        size_t cell = cell_of(number);
        if (get(image, cell + ITEM) != 0 && get(image, cell + INDEX) == number)
            printf("queued %" PRIu32 " as number %" PRIu32 "\n", get(image, cell + ITEM), number);
    }
    if (fclose(kept) != 0)
        stop("the kept image can't be written");
}

int main(int count, char **words)
{
    if (count == 3 && strcmp(words[1], "work") == 0)
        work(words[2]);
    else if (count == 3 && strcmp(words[1], "recover") == 0)
        recover(words[2]);
    else
        stop("usage: instrument work FILE | instrument recover FILE");
    return EXIT_SUCCESS;
}
