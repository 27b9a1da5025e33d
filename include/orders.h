/*
 * Allowance orders of the site's energy desk, as the C host in the post calls them. Link with
 * liborders.a, an archive for x86-64 Linux. It stands by itself and knows nothing of leads: it
 * makes the bytes that say which orders are in force. A host without a site manager does not need
 * it.
 *
 * The tick of post.h does not take orders yet: it goes by the allowance of its input, whatever
 * these bytes hold.
 *
 * An order says what the whole post may give out from one tick to another, in watts. Orders come as
 * text, one a line; docs/ORDERS.md is the desk's page on it:
 *
 *     order number <tab> first tick <tab> last tick <tab> watts <line feed>
 *
 * The four numbers are decimal, from 0 to 4,294,967,295, without a needless leading zero; the first
 * tick is not after the last. There are at most 64 lines, and the last may lack its line feed.
 * Nothing else may stand in a line: no space, sign or carriage return; nor may a line be empty, or
 * an order number be used twice in a text.
 *
 * The orders in force are 1,024 bytes of the host: 64 places, in the order of the lines. Take every
 * text that comes with take_orders_checked(): where it is accepted, its orders replace all those in
 * force, and a text without a line leaves none; where it is refused, the orders in force remain as
 * they are. Tell the desk the number, and the line by refused_line_checked():
 *
 *     uint8_t orders[ORDERS_LENGTH];
 *     take_orders_checked(NULL, 0, orders, sizeof orders);                    (at first: none)
 *     ...
 *     uint32_t number = take_orders_checked(text, length, orders, sizeof orders); (between ticks)
 *     if (number != ORDERS_DONE)
 *         tell_the_desk(number, refused_line_checked(text, length));
 *
 * Bytes that are all 0 are no "no orders": they are 64 orders of 0 W for tick 0.
 *
 * The host numbers its ticks from 0 at the post's setup. Of the orders that cover a tick, which are
 * those with first tick <= number <= last tick, the one with the highest order number counts,
 * wherever its line stands. The orders' ticks have 32 bits: from tick 4,294,967,296 on, after 13
 * years, none covers.
 *
 * What the calls do is said by request 2026-09 of document 02.
 *
 * What is left to the caller, as a pointer and a length cannot be checked:
 * - A pointer is valid for its whole length until the call returns, that to the orders for writing.
 *   take_orders() and refused_line() take no NULL, not even with length 0: the compiled code may
 *   assume so. The _checked calls hand it on as an empty buffer; use them.
 * - Text and orders do not overlap.
 * - No other thread touches them during the call.
 *
 * Everything else is checked: any bytes and any lengths are carried out or refused with the first
 * number below that fits. A refused call changes no byte.
 *
 * What the calls need:
 * - Alignment: none.
 * - Stack: less than 2 kB (seen in the archive: 1,152 bytes, and what memcpy takes), as a text is
 *   read into 1,024 bytes of its own. Where the C library is bound at its first call, that call
 *   takes more.
 * - Threads: the library has no memory of its own, so calls on different buffers may run at once.
 * - Time: every call ends, at the first line that is refused or at the text's end. A text of 64
 *   lines of the greatest length takes some microseconds.
 * - The archive is one ELF object for an x86-64 processor of level v2 (SSE4.2, POPCNT) or above,
 *   with position-independent code and System V calls. From elsewhere it needs memcpy.
 */
#ifndef ORDERS_H_INCLUDED
#define ORDERS_H_INCLUDED

#include <stddef.h>
#include <stdint.h>

#ifdef __cplusplus
extern "C" {
#endif

/*
 * Replaces the orders in force by those of a text. Returns ORDERS_DONE or the first refusal that
 * fits: ORDERS_REFUSED_LENGTH before the text is looked at; then, line by line,
 * ORDERS_REFUSED_LINE_65, ORDERS_REFUSED_LINE_FORM and ORDERS_REFUSED_NUMBER_USED.
 */
uint32_t take_orders(const uint8_t *text, size_t text_length, uint8_t *orders,
                     size_t orders_length);

/* The line at which a text is refused, counted from 1; 0 where the text is accepted. */
uint32_t refused_line(const uint8_t *text, size_t text_length);

#ifdef __cplusplus
}
#endif

/* The same for a host: a NULL, with any length, is handed on as an empty buffer. So a NULL for the
 * orders is refused with 43, and a NULL for the text is a text without a line. */
static inline uint32_t take_orders_checked(const uint8_t *text, size_t text_length,
                                           uint8_t *orders, size_t orders_length) {
    uint8_t none[2] = {0, 0}; /* two, as buffers do not overlap */
    return take_orders(text ? text : &none[0], text ? text_length : 0, orders ? orders : &none[1],
                       orders ? orders_length : 0);
}

static inline uint32_t refused_line_checked(const uint8_t *text, size_t text_length) {
    uint8_t none = 0;
    return refused_line(text ? text : &none, text ? text_length : 0);
}

/*
 * What the numbers tell a host. By none of them does a tick change: the orders in force remain.
 * - 33, 34, 35: the text is wrong, and the desk mends it by the line that refused_line() names. It
 *   stops at the first such line; there may be others behind it.
 * - 43: a mistake in the host's code; the same call is refused again.
 */

/* What take_orders returns, in the order of asking. */
#define ORDERS_DONE                0
#define ORDERS_REFUSED_LENGTH      43 /* the orders are not ORDERS_LENGTH bytes */
#define ORDERS_REFUSED_LINE_65     35 /* more lines than places */
#define ORDERS_REFUSED_LINE_FORM   33 /* not of the form, or its first tick after its last */
#define ORDERS_REFUSED_NUMBER_USED 34 /* an order number of a line before */

/* The orders in force: places, one after the other, in bytes. A number is little-endian. */
#define ORDERS_PLACES       64
#define ORDERS_PLACE_LENGTH 16
#define ORDERS_LENGTH       (ORDERS_PLACE_LENGTH * ORDERS_PLACES)

/* Where a place begins, the first being 0, and its numbers, 4 bytes each. An unused place has the
 * first tick 1 and else 0: as its first tick is after its last, it covers nothing. */
#define ORDERS_PLACE(place) (ORDERS_PLACE_LENGTH * (size_t)(place))
#define ORDERS_NUMBER       0
#define ORDERS_FIRST_TICK   4
#define ORDERS_LAST_TICK    8
#define ORDERS_WATTS        12

/* A text that is longer cannot be accepted: 64 lines of four numbers with 10 digits. */
#define ORDERS_TEXT_MAX (ORDERS_PLACES * 44)

/* Ticks in an hour. */
#define ORDERS_TICKS_PER_HOUR 36000

#endif
