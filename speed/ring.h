/*
 * The ring of document 01 as a C program keeps it that trusts its memory: the rows of the step table, write-backs and the cut, with
 * refusals 2 to 7. No record and no image is tested for soundness.
 */
#ifndef RING_H
#define RING_H

#include <stdbool.h>
#include <stdint.h>
#include <string.h>

enum { CELLS = 64, THREADS = 8, TRIES = 255, EVENTS = 1000000 };
enum { IDLE, P1, P2, P3, P4, P5, P6, P7, P8, P9, P10, T1, T2, T3, T4, T5, T6, T7, T8, T9, T10 }; /* the places */
enum { NONE, CELL, COPY = CELL + CELLS, TAIL = COPY + THREADS }; /* the lines: cell j is CELL + j, copy t is COPY + t */
enum { NOTHING, OK = 16, CLOSED, ITEM, EMPTY, CUT };             /* what is said of an event, if it isn't the number of a refusal */

struct cell {
    uint32_t safe, index, item, mark;
};

struct image {
    struct cell cell[CELLS];
    uint32_t copy[THREADS];
    uint32_t closed, tail;
};

struct thread {
    uint32_t place, item, number;
    struct cell seen; /* the cell as last looked at */
    uint32_t tries, line;
};

struct ring {
    uint32_t cells, threads, tries, events, head;
    struct thread thread[THREADS];
    struct image running, kept;
};

/* What is said of an event, and the item of OK and ITEM. */
struct answer {
    uint32_t said, item;
};

/* What a cut found: the queue's items by rising index. */
struct found {
    uint32_t mark, head, tail, closed, count;
    uint32_t item[CELLS];
};

static inline struct answer answer(uint32_t said)
{
    return (struct answer){ said, 0 };
}

/* A fresh ring. The numbers are in range. */
static inline void fresh(struct ring *g, uint32_t r, uint32_t n, uint32_t s)
{
    *g = (struct ring){ .cells = r, .threads = n, .tries = s };
    for (uint32_t j = 0; j < r; j++)
        g->running.cell[j] = (struct cell){ .safe = 1, .index = j };
    g->kept = g->running;
}

static inline struct cell *cell_of(struct ring *g, const struct thread *me)
{
    return &g->running.cell[me->number % g->cells];
}

static inline bool matches(const struct cell *cell, const struct thread *me)
{
    return memcmp(cell, &me->seen, sizeof *cell) == 0;
}

/* P6, P10 and T10: nothing changes while the thread awaits a line. */
static inline struct answer end_of(struct thread *me, uint32_t said)
{
    if (me->line != NONE)
        return answer(NOTHING);
    struct answer last = { said, me->item };
    *me = (struct thread){ 0 };
    return last;
}

/* One row of the step table. "Cell" is the cell at number mod R. */
static inline struct answer step(struct ring *g, struct thread *me, uint32_t t)
{
    struct image *m = &g->running;
    struct cell *cell;
    switch (me->place) {
    case P1:
        me->number = m->tail++;
        me->seen = (struct cell){ 0 };
        me->place = m->closed ? P7 : P2;
        break;
    case P2:
        me->seen = *cell_of(g, me);
        if (me->seen.item == 0 && me->seen.index <= me->number)
            me->place = me->seen.safe ? P4 : P3;
        else
            me->place = P8;
        break;
    case P3:
        me->place = g->head <= me->number ? P4 : P8;
        break;
    case P4:
        cell = cell_of(g, me);
        me->place = P8;
        if (matches(cell, me)) {
            *cell = (struct cell){ 1, me->number, me->item, cell->mark };
            me->place = P5;
        }
        break;
    case P5:
        me->line = CELL + me->number % g->cells;
        me->place = P6;
        break;
    case P6:
        return end_of(me, OK);
    case P7:
        me->line = TAIL;
        me->place = P10;
        break;
    case P8:
        me->tries++;
        me->place = P1;
        if (g->head + g->cells <= me->number || me->tries == g->tries) {
            me->tries = g->tries - 1;
            me->place = P9;
        }
        break;
    case P9:
        m->closed = 1;
        me->place = P7;
        break;
    case P10:
        return end_of(me, CLOSED);
    case T1:
        me->number = g->head++;
        me->seen = (struct cell){ 0 };
        me->place = T2;
        break;
    case T2:
        me->seen = *cell_of(g, me);
        if (me->seen.index > me->number)
            me->place = T6;
        else if (me->seen.item == 0)
            me->place = T5;
        else
            me->place = me->seen.index == me->number ? T3 : T4;
        break;
    case T3:
        cell = cell_of(g, me);
        me->place = T2;
        if (matches(cell, me)) {
            me->item = cell->item;
            *cell = (struct cell){ cell->safe, me->number + g->cells, 0, me->number + 1 };
            me->place = T8;
        }
        break;
    case T4:
        cell = cell_of(g, me);
        me->place = T2;
        if (matches(cell, me)) {
            cell->safe = 0;
            me->place = T6;
        }
        break;
    case T5:
        cell = cell_of(g, me);
        me->place = T2;
        if (matches(cell, me)) {
            *cell = (struct cell){ cell->safe, me->number + g->cells, 0, me->number + 1 };
            me->place = T6;
        }
        break;
    case T6:
        me->place = m->tail <= me->number + 1 ? T7 : T1;
        break;
    case T7:
        if (m->tail < g->head)
            m->tail = g->head;
        me->place = T8;
        break;
    case T8:
        m->copy[t] = me->number + 1;
        me->place = T9;
        break;
    case T9:
        me->line = COPY + t;
        me->place = T10;
        break;
    case T10:
        return end_of(me, me->item ? ITEM : EMPTY);
    }
    return answer(NOTHING);
}

/* The events. */

static inline struct answer go(struct ring *g, uint32_t t)
{
    if (g->events == EVENTS)
        return answer(7);
    if (t >= g->threads)
        return answer(2);
    if (g->thread[t].place == IDLE)
        return answer(5);
    g->events++;
    return step(g, &g->thread[t], t);
}

static inline struct answer put(struct ring *g, uint32_t t, uint32_t item)
{
    if (g->events == EVENTS)
        return answer(7);
    if (t >= g->threads)
        return answer(2);
    if (g->thread[t].place != IDLE)
        return answer(4);
    if (item == 0)
        return answer(6);
    g->events++;
    g->thread[t].place = P1;
    g->thread[t].item = item;
    return answer(NOTHING);
}

static inline struct answer take(struct ring *g, uint32_t t)
{
    if (g->events == EVENTS)
        return answer(7);
    if (t >= g->threads)
        return answer(2);
    if (g->thread[t].place != IDLE)
        return answer(4);
    g->events++;
    g->thread[t].place = T1;
    return answer(NOTHING);
}

/* Every thread that awaits the line awaits nothing. */
static inline struct answer written(struct ring *g, uint32_t line)
{
    g->events++;
    for (uint32_t t = 0; t < g->threads; t++)
        if (g->thread[t].line == line)
            g->thread[t].line = NONE;
    return answer(NOTHING);
}

static inline struct answer back_cell(struct ring *g, uint32_t j)
{
    if (g->events == EVENTS)
        return answer(7);
    if (j >= g->cells)
        return answer(3);
    g->kept.cell[j] = g->running.cell[j];
    return written(g, CELL + j);
}

static inline struct answer back_copy(struct ring *g, uint32_t t)
{
    if (g->events == EVENTS)
        return answer(7);
    if (t >= g->threads)
        return answer(3);
    g->kept.copy[t] = g->running.copy[t];
    return written(g, COPY + t);
}

static inline struct answer back_tail(struct ring *g)
{
    if (g->events == EVENTS)
        return answer(7);
    g->kept.closed = g->running.closed;
    g->kept.tail = g->running.tail;
    return written(g, TAIL);
}

/* The largest of all marks and copies. */
static inline uint32_t pass_mark(const struct ring *g)
{
    uint32_t mark = 0;
    for (uint32_t j = 0; j < g->cells; j++)
        if (g->kept.cell[j].mark > mark)
            mark = g->kept.cell[j].mark;
    for (uint32_t t = 0; t < g->threads; t++)
        if (g->kept.copy[t] > mark)
            mark = g->kept.copy[t];
    return mark;
}

/* Recovery: finds the queue in the kept image, by insertion, and leaves both images and the threads as a cut does. */
static inline void recover(struct ring *g, struct found *f)
{
    uint32_t index[CELLS];
    uint32_t count = 0;
    f->mark = pass_mark(g);
    for (uint32_t j = 0; j < g->cells; j++) {
        struct cell *cell = &g->kept.cell[j];
        if (cell->item == 0)
            continue;
        if (cell->index < f->mark) {
            cell->index += g->cells;
            cell->item = 0;
            continue;
        }
        uint32_t at = count++;
        for (; at > 0 && index[at - 1] > cell->index; at--) {
            index[at] = index[at - 1];
            f->item[at] = f->item[at - 1];
        }
        index[at] = cell->index;
        f->item[at] = cell->item;
    }
    f->count = count;
    f->head = count ? index[0] : f->mark;
    f->tail = count ? index[count - 1] + 1 : f->mark;
    f->closed = g->kept.closed;

    for (uint32_t j = 0; j < g->cells; j++) {
        g->kept.cell[j].safe = 1;
        g->kept.cell[j].mark = f->head;
    }
    for (uint32_t t = 0; t < g->threads; t++)
        g->kept.copy[t] = f->head;
    g->kept.tail = f->tail;
    g->running = g->kept;
    g->head = f->head;
    memset(g->thread, 0, sizeof g->thread);
}

static inline struct answer cut(struct ring *g, struct found *f)
{
    if (g->events == EVENTS)
        return answer(7);
    g->events++;
    recover(g, f);
    return answer(CUT);
}

#endif
