/* Wiring Orders for C and C++: confirms an order form, or applies one amendment to it.
 *
 * Link target/native/libwiring.a, which ./archive makes. Nothing else is needed but memcpy and memset.
 *
 * WHAT GOES IN
 *   image      the form on file, image_len bytes: any bytes at all. A form has at most WIRING_FORM_MAX bytes. All its numbers are
 *              little-endian. With n places and m runs:
 *                bytes 0 and 1    3, the number of contents entries
 *                2, 8 and 14      the entries of places, runs and line four, three 16-bit numbers each: kind (1, 2, 3), offset
 *                                 (20, 20 + n, 20 + n + 5m), number of records (n, m, 1)
 *                20 on            a byte for each place: 0 none, 1 a supply. 1 to 256 places, numbered from 0
 *                20 + n on        5 bytes for each run: ends u and v, 16 bits each, u < v < n; state 0 struck, 1 possible, 2 fixed.
 *                                 0 to 1,024 runs, numbered from 0 as listed; no pair of ends twice, struck runs included
 *                20 + n + 5m on   line four: low and high, 16 bits each, low <= high; the form ends here, at 24 + n + 5m
 *   form, wiring, segments
 *              three buffers lent by the caller, each with its length: bytes, bytes, and 16-bit numbers (the count of numbers, not of
 *              bytes). A form with n places and m runs needs 24 + n + 5m, m and n; the lengths below suffice for every form.
 *              What they hold beforehand does not matter.
 *   kind, a, b an amendment: 1 r 0 pins run r, 2 r 0 strikes run r, 3 a b narrows the number of segments to a..b.
 *
 * A WIRING names the runs that are used. The places that used runs join are a segment; a place that none touches is one alone. It is
 *   lawful if it uses every fixed run and no struck one, has no loop, each segment holds a supply, and the number of segments lies from
 *   low to high. Of the lawful wirings with the most segments the first is that which, run by run as listed, has a used run where it
 *   first differs from any other. A wiring obeys a pin if it uses the run, a strike if it does not, a narrowing if its number of
 *   segments lies from a to b.
 *
 * WHAT COMES BACK
 *   Accepted: number and place are 0; struck and pinned count the possible runs that the filtering struck and pinned. For an amendment
 *   this is the last filtering, and the amendment's own mark is not counted. Written are exactly
 *     form[0 .. 24 + n + 5m)   the confirmed form: places and ends as they were; a possible run struck where no lawful wiring uses it,
 *                              fixed where every one does; low and high the least and the greatest number of segments
 *     wiring[0 .. m)           the first wiring: 1 for a run that it uses, else 0
 *     segments[0 .. n)         for each place the smallest place of its segment of the first wiring, in the machine's own byte order
 *   and all that follows in each buffer is kept.
 *   Refused: number is 1 to 14, place says where in the form, struck and pinned are 0. No byte of the three buffers is changed.
 *
 *   The checks are made in the order of the numbers, and the first that fails decides. Place is 0 unless one is named.
 *      1  fewer than 20 bytes, not 3 entries, a kind out of order, or line four has not one record
 *      2  n is 0 or above 256, or m is above 1,024
 *      3  an offset or the length is not that of the layout above
 *      4  a place's byte is above 1. Place: the first such place
 *      5  a run has not u < v < n, or its state is above 2. Place: the first such run
 *      6  a run names the pair of ends of an earlier run. Place: the first such run
 *      7  low is above high
 *      8  form_len is below 24 + n + 5m, wiring_len below m, or segments_len below n
 *      9  the fixed runs have a loop. Place: the first run that closes one with earlier fixed runs
 *     10  some place is joined to no supply by unstruck runs. Place: the smallest such place
 *     11  high is below MIN, the number of pieces that the unstruck runs make, or low is above MAX, the number of those pieces of the
 *         fixed runs that hold a supply
 *     12  kind is not 1 to 3; or kind is 1 or 2 and a is no run's number, or b is not 0
 *     13  kind is 3 and a is above b
 *     14  no lawful wiring of the form obeys the amendment
 *   wiring_filter answers 0 to 11. wiring_amend answers 0 to 14: 9 to 11 speak of the form as sent, and where only the amended form
 *   has no lawful wiring the number is 14.
 *
 * WHAT A CALLER OWES. Nothing can check it; all else is any caller's right.
 *   Each pointer is not null, also where its length is 0, and the number of elements that its length says may be read (and written, for
 *   the three buffers) behind it. segments is aligned for uint16_t. The four do not overlap: to amend a form in place, lend another
 *   buffer and copy. No other thread writes the four, or reads the three buffers, during the call.
 *
 * The library has no state, takes no memory from the heap, never blocks and always returns: calls from many threads may run at once.
 * wiring_filter takes about 31 KiB of stack and wiring_amend about 38 (measured), whatever the form; have 40 KiB.
 */
#ifndef WIRING_H
#define WIRING_H

#include <stddef.h>
#include <stdint.h>

/* the longest form, the most runs and the most places: buffers of these lengths are never too short */
#define WIRING_FORM_MAX 5400
#define WIRING_RUNS_MAX 1024
#define WIRING_PLACES_MAX 256

#ifdef __cplusplus
extern "C" {
#endif

typedef struct {
    uint16_t number; /* 0 accepted, else the number of the refusal */
    uint16_t place;  /* of a refusal */
    uint16_t struck; /* of an acceptance */
    uint16_t pinned; /* of an acceptance */
} wiring_reply;

/* Confirms the form, or refuses it. */
wiring_reply wiring_filter(const uint8_t *image, size_t image_len,
                           uint8_t *form, size_t form_len,
                           uint8_t *wiring, size_t wiring_len,
                           uint16_t *segments, size_t segments_len);

/* Confirms the form, writes the amendment into the confirmed form, and confirms the result; or refuses. */
wiring_reply wiring_amend(const uint8_t *image, size_t image_len,
                          uint16_t kind, uint16_t a, uint16_t b,
                          uint8_t *form, size_t form_len,
                          uint8_t *wiring, size_t wiring_len,
                          uint16_t *segments, size_t segments_len);

#ifdef __cplusplus
}
#endif

#endif
