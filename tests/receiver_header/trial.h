/* What the parts of the test share: bytes with others around them, and the request's words as
 * functions. */
#ifndef TRIAL_H_INCLUDED
#define TRIAL_H_INCLUDED

#include "../checks.h"
#include "receiver.h"

#include <stdbool.h>

/*
 * What a call is lent: a receiver, and a frame of which a value or a line takes the first byte.
 * Around them stand bytes that no call may touch.
 */
struct memory {
    uint8_t before[8], receiver[RECEIVER_LENGTH], between[8], lent[RECEIVER_FRAME_LENGTH], after[8];
};
extern struct memory memory, expected;

/* Three receivers to begin with; the bytes around them and what is lent are set too. */
enum { ZEROS, ONES, MIXED, FILLINGS };
void fill(unsigned filling);

/* A call on `memory`, carried out: every byte afterwards has to be that of the request's words. */
void power_up(void);
void read_register(uint32_t number);
void write_register(uint32_t number, uint8_t value);
void arrive(const uint8_t *frame);
void drain(void);
void ask_line(void);

/* A frame of this number, unlike that of every other number below 256. */
void put_frame(uint8_t *frame, unsigned number);

void try_wrappers(void);
void try_refusals(void);
void try_registers(void);
void try_ring(void);

#endif
