/* Every value with either state, the ends of the ranges by their names, and lists of values. */
#include "trial.h"

static uint32_t sense(uint32_t millivolts) {
    return plug_sense_checked(rooms.state + AHEAD, PLUG_STATE_LENGTH, millivolts,
                              rooms.plug + AHEAD, PLUG_LENGTH);
}

/* "The lowest range is closed. The middle range is closed only in the tick just after the lowest
 * [...]. All else is open." */
static void try_value(uint8_t state, uint32_t millivolts) {
    bool is_lowest = millivolts >= 3200 && millivolts <= 4800;
    bool is_middle = millivolts >= 5200 && millivolts <= 6800;
    about("value", millivolts);
    fill(state);
    expected.state[AHEAD] = is_lowest;
    expected.plug[AHEAD] = is_lowest || (is_middle && state == 1) ? PLUG_CLOSED : PLUG_OPEN;
    CHECK(sense(millivolts), PLUG_DONE);
    check_bytes("done", &rooms, &expected, sizeof rooms, AHEAD);
}

/* The bit of a value that comes just after one in the lowest range. */
static uint8_t bit_after_lowest(uint32_t millivolts) {
    fill(PLUG_FRESH_STATE);
    CHECK(sense(PLUG_U1C_MIN), PLUG_DONE);
    CHECK(sense(millivolts), PLUG_DONE);
    return rooms.plug[AHEAD];
}

/* Of the first range no answer tells the ends: it is open, as what lies beside it is. */
static void try_ends(void) {
    about("ends", 0);
    CHECK(bit_after_lowest(PLUG_U1C_MIN - 1), PLUG_OPEN);
    CHECK(bit_after_lowest(PLUG_U1C_MIN), PLUG_CLOSED);
    CHECK(bit_after_lowest(PLUG_U1C_MAX), PLUG_CLOSED);
    CHECK(bit_after_lowest(PLUG_U1C_MAX + 1), PLUG_OPEN);
    CHECK(bit_after_lowest(PLUG_U1B_MIN - 1), PLUG_OPEN);
    CHECK(bit_after_lowest(PLUG_U1B_MIN), PLUG_CLOSED);
    CHECK(bit_after_lowest(PLUG_U1B_MAX), PLUG_CLOSED);
    CHECK(bit_after_lowest(PLUG_U1B_MAX + 1), PLUG_OPEN);
    CHECK(bit_after_lowest(PLUG_LARGEST_MILLIVOLTS), PLUG_OPEN);
    CHECK(sense(PLUG_LARGEST_MILLIVOLTS + 1), PLUG_REFUSED_MILLIVOLTS);
    CHECK(PLUG_U1A_MIN, 11200);
    CHECK(PLUG_U1A_MAX, 12800);
    CHECK(PLUG_OPEN != PLUG_CLOSED, true);
}

/* From a fresh state on, each with its answer. */
static void try_list(void) {
    static const struct {
        uint32_t millivolts, answer;
        uint8_t plug;
    } list[] = {
        {6000, PLUG_DONE, PLUG_OPEN},   {4000, PLUG_DONE, PLUG_CLOSED},
        {6000, PLUG_DONE, PLUG_CLOSED}, {6000, PLUG_DONE, PLUG_OPEN},
        {4000, PLUG_DONE, PLUG_CLOSED}, {20001, PLUG_REFUSED_MILLIVOLTS, PLUG_CLOSED},
        {6000, PLUG_DONE, PLUG_CLOSED}, {4000, PLUG_DONE, PLUG_CLOSED},
        {12000, PLUG_DONE, PLUG_OPEN},  {6000, PLUG_DONE, PLUG_OPEN},
    };
    fill(PLUG_FRESH_STATE);
    for (unsigned i = 0; i < sizeof list / sizeof *list; i++) {
        about("value of the list", i);
        CHECK(sense(list[i].millivolts), list[i].answer);
        CHECK(rooms.plug[AHEAD], list[i].plug);
    }
}

void try_values(void) {
    for (uint8_t state = 0; state < 2; state++)
        for (uint32_t millivolts = 0; millivolts <= PLUG_LARGEST_MILLIVOLTS; millivolts++)
            try_value(state, millivolts);
    try_ends();
    try_list();
}
