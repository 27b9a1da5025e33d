/* What the parts of the header's test share: bytes, and a lead taken through its phases. */
#ifndef TRIAL_H_INCLUDED
#define TRIAL_H_INCLUDED

#include "../checks.h"
#include "post.h"

/* The second of two leads is tried, so that lengths count, and every figure is another one. */
enum { LEADS = 2, LEAD = 1, RATED_VOLTS = 400, RATED_AMPERES = 125, USUAL_LIMIT = 100000 };
enum { CABLE_RESISTANCE = 0x3E800000 }; /* 0.25 ohms as a float */
enum { VOLTS_ERROR = 3, AMPERES_ERROR = 2 }; /* tenths */
enum { MAXIMUM_VOLTAGE = 430, TARGET_VOLTAGE = 380, REQUEST = 100 };
enum { TIME_TENS = 12, TIME_MINUTES = 34 };
enum { UNUSED_FAULTS = 0xA0, UNUSED_STATUS = 0x40 }; /* bits that nothing is asked about */
enum { ROOM = 1024 }; /* more than any length, right or wrong */

extern uint8_t state[ROOM], input[ROOM], output[ROOM];
extern uint32_t power_limit;

/* A place in a table, and its name in front. */
#define NAMED(place) #place, place

void put_frame(uint8_t *record, uint16_t identifier, const uint8_t *data);

/* The number of one, two, four or eight bytes in the tried lead's part of state and output. */
uint64_t state_at(size_t place, size_t length);
uint64_t output_at(size_t place, size_t length);

/* The bytes that come in of which each bit has a meaning of its own. */
enum { CONTACTS, PRESENT, FAULTS, STATUS, BIT_BYTES };

/* What a lead and its car do in a tick; `frames` are the POST_SEEN_ bits of those sent. */
struct scene {
    uint8_t byte[BIT_BYTES];
    float volts, amperes, ohms;
    uint8_t frames, tens;
    uint16_t target;
};

void put_scene(const struct scene *scene); /* into the input */
uint32_t tick_input(void);
uint32_t tick_scene(const struct scene *scene);

/* Flags of H'109. Bits are added up, so that a name with two bits shows. */
#define WAITING  (POST_FLAG_STOP_CONTROL + POST_FLAG_LOCKED)
#define CHARGING (POST_FLAG_CHARGING + POST_FLAG_LOCKED)
#define RAMPING  (WAITING + POST_FLAG_CHARGING)

/*
 * A lead's way through all phases, from 0 to 10. A row's scene moves a lead out of the phase before
 * and keeps it in its own. The rest is what the lead shows in the tick of the move.
 */
enum { PHASES = 11 };
extern const struct row {
    uint8_t phase;
    struct scene scene;
    uint8_t switches, flags;
    uint16_t test_volts, threshold, volts;
    uint8_t amperes, tens;
} way[PHASES];

void set_up(void);          /* a fresh post */
void reach(unsigned phase); /* a fresh post, its lead taken to this phase */

void try_refusals(void);
void try_phases(void);
void try_stops(void);
void try_records(void);

#endif
