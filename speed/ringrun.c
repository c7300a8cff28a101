/*
 * A yardstick: `ringrun` of document 01 as one writes it in C without proof. It prints what the proved program prints, byte for byte,
 * in memory of fixed size.
 */
#define _GNU_SOURCE /* memrchr */
#include "ring.h"

#include <unistd.h>

enum { LINE = 40, BLOCK = 65536, LONGEST_OUTPUT = 1024 };

static struct ring ring;
static uint64_t lines;                    /* input lines so far */
static char input[LINE + 1 + BLOCK + 16]; /* the beginning of a line, a block, and room to look ahead */
static char output[BLOCK];
static size_t used;

/* ---- output */

static void flush(void)
{
    size_t done = 0;
    while (done < used) {
        ssize_t wrote = write(STDOUT_FILENO, output + done, used - done);
        if (wrote <= 0)
            _exit(1);
        done += (size_t)wrote;
    }
    used = 0;
}

static void print_text(const char *text)
{
    size_t length = strlen(text);
    memcpy(output + used, text, length);
    used += length;
}

static void print_number(uint64_t x)
{
    char digits[20];
    size_t at = sizeof digits;
    do
        digits[--at] = (char)('0' + x % 10);
    while ((x /= 10) > 0);
    memcpy(output + used, digits + at, sizeof digits - at);
    used += sizeof digits - at;
}

/* A space and a number. */
static void print_next(uint64_t x)
{
    output[used++] = ' ';
    print_number(x);
}

/* The event count and a word. */
static void print_counted(const char *word)
{
    print_number(ring.events);
    print_text(word);
}

static void print_refused(uint32_t number)
{
    print_text("refused");
    print_next(lines);
    print_next(number);
}

static void print_cut(const struct found *f)
{
    print_counted(" cut");
    print_next(f->mark);
    print_next(f->head);
    print_next(f->tail);
    print_next(f->closed);
    print_next(f->count);
    for (uint32_t i = 0; i < f->count; i++)
        print_next(f->item[i]);
}

static void print_answer(struct answer a, uint32_t t, const struct found *f)
{
    switch (a.said) {
    case NOTHING: return;
    case OK: print_counted(" ok"); print_next(t); print_next(a.item); break;
    case CLOSED: print_counted(" closed"); print_next(t); break;
    case ITEM: print_counted(" item"); print_next(t); print_next(a.item); break;
    case EMPTY: print_counted(" empty"); print_next(t); break;
    case CUT: print_cut(f); break;
    default: print_refused(a.said);
    }
    output[used++] = '\n';
    if (used > sizeof output - LONGEST_OUTPUT)
        flush();
}

/* ---- input: every line ends with a newline, which stops all that reads on. No line of over 37 bytes is understood: 40 need no test. */

/* Passes over a text, or gives NULL. */
static inline const char *text(const char *at, const char *wanted)
{
    size_t length = strlen(wanted);
    return memcmp(at, wanted, length) == 0 ? at + length : NULL;
}

/* Reads a decimal number without leading zeros and passes over the byte after it, or gives NULL. */
static inline const char *number(const char *at, uint32_t *x, char after)
{
    if (at == NULL)
        return NULL;
    const char *first = at;
    uint64_t value = 0;
    for (; *at >= '0' && *at <= '9'; at++) {
        value = 10 * value + (uint64_t)(*at - '0');
        if (value > UINT32_MAX)
            return NULL;
    }
    if (at == first || (*first == '0' && at > first + 1) || *at != after)
        return NULL;
    *x = (uint32_t)value;
    return at + 1;
}

/* The first line. Gives whether there is a ring. */
static bool first_line(const char *line)
{
    uint32_t r, n, s;
    struct answer a = answer(NOTHING);
    if (number(number(number(text(line, "ring "), &r, ' '), &n, ' '), &s, '\n') == NULL)
        a = answer(9);
    else if (r < 1 || r > CELLS || n < 1 || n > THREADS || s < 1 || s > TRIES)
        a = answer(1);
    else
        fresh(&ring, r, n, s);
    print_answer(a, 0, NULL);
    return a.said == NOTHING;
}

/* Any later line. Gives the place after it, or NULL if it isn't understood. */
static inline const char *event_line(const char *line)
{
    const char *next = NULL;
    struct answer a = answer(9);
    struct found f;
    uint32_t t = 0, x;
    switch (*line) {
    case 'g':
        if ((next = number(text(line, "go "), &t, '\n')) != NULL)
            a = go(&ring, t);
        break;
    case 'p':
        if ((next = number(number(text(line, "put "), &t, ' '), &x, '\n')) != NULL)
            a = put(&ring, t, x);
        break;
    case 't':
        if ((next = number(text(line, "take "), &t, '\n')) != NULL)
            a = take(&ring, t);
        break;
    case 'b':
        if ((next = number(text(line, "back cell "), &x, '\n')) != NULL)
            a = back_cell(&ring, x);
        else if ((next = number(text(line, "back copy "), &x, '\n')) != NULL)
            a = back_copy(&ring, x);
        else if ((next = text(line, "back tail\n")) != NULL)
            a = back_tail(&ring);
        break;
    case 'c':
        if ((next = text(line, "cut\n")) != NULL)
            a = cut(&ring, &f);
        break;
    }
    print_answer(a, t, &f);
    return next;
}

/* Whole lines. Gives whether reading goes on: after a refused first line it doesn't. */
static bool run(const char *line, const char *end)
{
    while (line < end) {
        const char *next = NULL;
        if (++lines > 1)
            next = event_line(line);
        else if (!first_line(line))
            return false;
        if (next == NULL)
            next = (const char *)memchr(line, '\n', (size_t)(end - line)) + 1;
        line = next;
    }
    return true;
}

int main(void)
{
    size_t held = 0; /* bytes of a line whose newline hasn't come yet: LINE + 1 say that it is too long */
    bool more = true;
    ssize_t got;
    while (more && (got = read(STDIN_FILENO, input + held, BLOCK)) > 0) {
        const char *end = input + held + got;
        const char *newline = memrchr(input + held, '\n', (size_t)got);
        const char *rest = newline == NULL ? input : newline + 1;
        more = run(input, rest);
        held = (size_t)(end - rest);
        if (held > LINE + 1)
            held = LINE + 1;
        memmove(input, rest, held);
    }
    if (more && (held > 0 || lines == 0)) { /* the last newline may be missing, and empty input is one empty line */
        input[held] = '\n';
        run(input, input + held + 1);
    }
    print_text("end");
    print_next(ring.events);
    output[used++] = '\n';
    flush();
    return 0;
}
