/* Every refusal, alone and before each later one, at the edges of what is taken and for NULLs; a
 * refused call changes no byte. */
#include "trial.h"

/* "31, for a value above 20,000, asked before the state is looked at"; then 6, a state that is not
 * one byte of 0 or 1; then 8, a plug that is not one byte. */
static uint32_t expected_answer(size_t state_length, uint32_t millivolts, size_t plug_length) {
    if (millivolts > 20000)
        return PLUG_REFUSED_MILLIVOLTS;
    if (state_length != 1 || rooms.state[AHEAD] > 1)
        return PLUG_REFUSED_STATE;
    return plug_length != 1 ? PLUG_REFUSED_ROOM : PLUG_DONE;
}

/* Carried out, the plug holds something else than before; values.c says what. */
static void try_call(uint8_t *state, size_t state_length, uint32_t millivolts, uint8_t *plug,
                     size_t plug_length) {
    uint32_t answer = expected_answer(state ? state_length : 0, millivolts, plug ? plug_length : 0);
    CHECK(plug_sense_checked(state, state_length, millivolts, plug, plug_length), answer);
    if (answer != PLUG_DONE)
        check_bytes("refused", &rooms, &expected, sizeof rooms, AHEAD);
    else
        CHECK(rooms.plug[AHEAD] != expected.plug[AHEAD], true);
}

static const size_t lengths[] = {0, 1, 2, 3, 255, 256, 257, 400};
enum { LENGTHS = sizeof lengths / sizeof *lengths };

/* All pairs of lengths, and each pointer NULL, alone and with the other. */
static void try_lengths(uint8_t state, uint32_t millivolts) {
    for (unsigned i = 0; i < LENGTHS; i++)
        for (unsigned j = 0; j < LENGTHS; j++)
            for (unsigned nulls = 0; nulls < 4; nulls++) {
                fill(state);
                try_call(nulls & 1 ? NULL : rooms.state + AHEAD, lengths[i], millivolts,
                         nulls & 2 ? NULL : rooms.plug + AHEAD, lengths[j]);
            }
}

/* Every byte as a state, and the lengths with some of them. */
static void try_states(uint32_t millivolts) {
    about("value", millivolts);
    for (unsigned state = 0; state < 256; state++) {
        fill((uint8_t)state);
        try_call(rooms.state + AHEAD, PLUG_STATE_LENGTH, millivolts, rooms.plug + AHEAD,
                 PLUG_LENGTH);
    }
    for (uint8_t state = 0; state < 3; state++)
        try_lengths(state, millivolts);
    try_lengths(255, millivolts);
}

/* Values past the largest, many of which are taken in their lowest two bytes: all 32 bits count. */
void try_refusals(void) {
    static const uint32_t values[] = {0,
                                      4000,
                                      PLUG_LARGEST_MILLIVOLTS,
                                      PLUG_LARGEST_MILLIVOLTS + 1,
                                      65536,
                                      65536 + 4000,
                                      65536 + 6000,
                                      0x80000000,
                                      0x80000000 + 4000,
                                      0xFFFFFFFF};
    for (unsigned i = 0; i < sizeof values / sizeof *values; i++)
        try_states(values[i]);
}
