/*
 * Winterbeam: recovery of a ring's kept memory after a power cut.
 *
 * Link with libhost.a, which `rt lib` makes in crates/host (crates/host/out/libhost.a, Linux on
 * x86-64 with SSE4.1, which x86-64-v2 has).
 * The archive needs memcpy and memset from the C library, and nothing else.
 */
#ifndef WINTERBEAM_H
#define WINTERBEAM_H

#include <stddef.h>
#include <stdint.h>

#ifdef __cplusplus
extern "C" {
#endif

/*
 * A kept image is a run of 32-bit numbers, four bytes a number, low byte first. Its ring has R cells
 * and n threads.
 *
 *   number 4j         cell j: safe, 0 or 1
 *   number 4j + 1     cell j: index
 *   number 4j + 2     cell j: item, 0 if the cell is blank
 *   number 4j + 3     cell j: mark
 *   number 4R + t     thread t's local copy of Head
 *   number 4R + n     closed, 0 or 1
 *   number 4R + n + 1 Tail
 *
 * So an image has 4R + n + 2 numbers, and 16R + 4n + 8 bytes.
 */
#define WINTERBEAM_CELLS 64u       /* R is 1 to this */
#define WINTERBEAM_THREADS 8u      /* n is 1 to this */
#define WINTERBEAM_TRIES 255u      /* the tries limit S is 1 to this */
#define WINTERBEAM_EVENTS 1000000u /* the event count is 0 to this */

/* How many bytes the image of such a ring has, and the most that any has. */
#define WINTERBEAM_BYTES(cells, threads) (16u * (size_t)(cells) + 4u * (size_t)(threads) + 8u)
#define WINTERBEAM_MOST_BYTES 1064u

/* What winterbeam_recover returns. It returns nothing else. */
#define WINTERBEAM_RECOVERED 0u  /* the image is recovered */
#define WINTERBEAM_BAD_RING 8u   /* cells, threads, tries or events is out of range */
#define WINTERBEAM_TOO_SHORT 10u /* len is under WINTERBEAM_BYTES(cells, threads) */
#define WINTERBEAM_NOT_SOUND 12u /* the image is not sound, as explained below */

/*
 * Makes the kept image of a ring what a power cut leaves of it, so that the ring can go on from
 * there. Call it after power returns, before anything else uses the image. To call it again does
 * no harm: a second call changes nothing.
 *
 *   cells, threads, tries  the ring's R, n and S, as it was set up
 *   events                 the ring's event count at the cut. A larger one will do, up to
 *                          WINTERBEAM_EVENTS: it serves only to test whether the image is sound
 *   kept, len              the kept image, and how many bytes there are
 *
 * Recovery works from these alone. The pass mark is the largest of all marks and copies. Queued are
 * the cells with an item whose index is not below the pass mark, in the order of their indexes
 * (equal ones, which no ring's run leaves, in the order of the cells). Head is the smallest queued
 * index, Tail the largest and one more; if nothing is queued both are the pass mark. A call that
 * returns 0 leaves
 *
 *   - the queued cells with their index and item, and the blank cells with their index;
 *   - the other cells, those with an item and an index below the pass mark, blank, with their index
 *     more by R;
 *   - 1 in every safe, Head in every mark and every copy, closed as it was, and Tail in Tail.
 *
 * So afterwards the cells with an item are the queue.
 *
 * Refusals: the tests are made in the order 8, 10, 12, and the first that fails gives the number.
 * An image is sound if every safe and closed is 0 or 1; marks, copies and Tail are at most
 * `events`; the index of a cell with an item is below `events`; and the index of a blank cell is
 * below `events` + R.
 *
 * What is written: nothing if the call is refused, and otherwise only the first
 * WINTERBEAM_BYTES(cells, threads) bytes of `kept`. All bytes after them stay as they are, however
 * many there are. The call keeps no state, allocates nothing, and always returns.
 *
 * `kept` may have any alignment. It must not be NULL, not even if `len` is 0.
 *
 * Stack: 1160 bytes, return addresses included, most of them a local array of 266 numbers. Plan
 * for 1.5 KiB. Where a program binds its libraries lazily, the dynamic linker takes about 3 KiB
 * more at the first call; linked with -static or -Wl,-z,now it doesn't.
 *
 * Calls on different images may run at the same time. On one image they may not, and nothing else
 * may read or write the image during a call. The bytes are written as any store writes them: to
 * flush them from the processor's caches is the caller's part.
 */
uint32_t winterbeam_recover(uint32_t cells, uint32_t threads, uint32_t tries, uint32_t events,
                            uint8_t *kept, size_t len);

#ifdef __cplusplus
}
#endif

#endif
