/*
 * What plug_sense_checked() hands on. The library refuses an empty buffer at any address, so its
 * answers cannot show a NULL; here the call is another one, which looks.
 */
#define plug_sense seen_plug_sense
#include "trial.h"

enum { LENGTH = 71, PLUG_BYTES = 5, VALUE = 0x12345678 };

static uint8_t state[LENGTH], plug[PLUG_BYTES];
static bool no_state, no_plug;

/* A NULL has become an empty buffer at some other address, and the rest is as it was handed in. */
uint32_t plug_sense(uint8_t *at, size_t length, uint32_t millivolts, uint8_t *other,
                    size_t other_length) {
    CHECK(at != NULL && at != plug, true);
    CHECK(at == state, !no_state);
    CHECK(length, no_state ? 0 : LENGTH);
    CHECK(millivolts, VALUE);
    CHECK(other != NULL && other != state && other != at, true);
    CHECK(other == plug, !no_plug);
    CHECK(other_length, no_plug ? 0 : PLUG_BYTES);
    return 7;
}

void try_wrapper(void) {
    for (unsigned nulls = 0; nulls < 4; nulls++) {
        no_state = nulls & 1;
        no_plug = nulls & 2;
        about("nulls", nulls);
        CHECK(plug_sense_checked(no_state ? NULL : state, LENGTH, VALUE, no_plug ? NULL : plug,
                                 PLUG_BYTES),
              7);
    }
}
