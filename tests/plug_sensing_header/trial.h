/* What the parts of the test share: bytes with others around them. */
#ifndef TRIAL_H_INCLUDED
#define TRIAL_H_INCLUDED

#include "../checks.h"
#include "plug_sensing.h"

#include <stdbool.h>

/* Room for any length tried, and for bytes on both sides that no call may touch. */
enum { AHEAD = 16, ROOM = 512 };

/* What a call is lent begins at AHEAD. */
struct rooms {
    uint8_t state[ROOM], plug[ROOM];
};
extern struct rooms rooms, expected;

/* The state's byte; all others hold something that no call writes. What is expected is the same. */
void fill(uint8_t state);

void try_wrapper(void);
void try_refusals(void);
void try_values(void);

#endif
