/* What the parts of the test share: orders with other bytes around them, and texts. */
#ifndef TRIAL_H_INCLUDED
#define TRIAL_H_INCLUDED

#include "../checks.h"
#include "orders.h"

#include <stdbool.h>

/* Room for any length tried, and for bytes on both sides that no call may touch. */
enum { AHEAD = 16, ROOM = ORDERS_LENGTH + 2 * AHEAD };

/* What a call is lent begins at AHEAD. */
struct rooms {
    uint8_t orders[ROOM];
};
extern struct rooms rooms, expected;

/* Every byte holds something that no text makes; what is expected is the same. */
void fill(void);

/* A text taken into orders of so many bytes, and the line at which it is refused. */
uint32_t take(const char *text, size_t orders_length);
uint32_t line_of(const char *text);

/* So many lines with the numbers from 0 on, and a line of any kind behind them. */
const char *numbered(unsigned lines, const char *behind);

void try_wrappers(void);
void try_refusals(void);
void try_places(void);

#endif
