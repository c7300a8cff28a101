/*
 * Calls the exported recovery for the Rust tests. All numbers are four bytes, low byte first.
 *
 * A request on standard input: cells, threads, tries, events, start, length, total, and then total bytes. The call is made on the
 * length bytes from start on. The answer on standard output: the returned number, and all the bytes as they are then.
 * It ends where the input ends between two requests.
 */
#include "winterbeam.h"

#include <stdio.h>
#include <stdlib.h>

enum { CELLS, THREADS, TRIES, EVENTS, START, LENGTH, TOTAL, HEADER };

static void stop(const char *what)
{
    fprintf(stderr, "client: %s\n", what);
    exit(EXIT_FAILURE);
}

static uint32_t number(const uint8_t *b)
{
    return (uint32_t)b[0] | (uint32_t)b[1] << 8 | (uint32_t)b[2] << 16 | (uint32_t)b[3] << 24;
}

int main(void)
{
    uint8_t header[4 * HEADER];
    for (;;) {
        size_t got = fread(header, 1, sizeof header, stdin);
        if (got == 0 && feof(stdin))
            return EXIT_SUCCESS;
        if (got != sizeof header)
            stop("half a request");
        uint32_t request[HEADER];
        for (size_t i = 0; i < HEADER; i++)
            request[i] = number(header + 4 * i);
        size_t total = request[TOTAL];
        if (request[START] > total || request[LENGTH] > total - request[START])
            stop("the part lies outside the bytes");
        uint8_t *bytes = malloc(total + 1);
        if (bytes == NULL)
            stop("no memory");
        if (fread(bytes, 1, total, stdin) != total)
            stop("too few bytes");

        uint32_t result = winterbeam_recover(request[CELLS], request[THREADS], request[TRIES], request[EVENTS],
                                             bytes + request[START], request[LENGTH]);

        uint8_t answer[4];
        for (size_t i = 0; i < 4; i++)
            answer[i] = (uint8_t)(result >> (8 * i));
        if (fwrite(answer, 1, 4, stdout) != 4 || fwrite(bytes, 1, total, stdout) != total || fflush(stdout) != 0)
            stop("the answer can't be written");
        free(bytes);
    }
}
