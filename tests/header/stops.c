/* Every stop reason, and every bit of the bytes that come in, each for itself. */
#include "trial.h"

#define BROKEN (WAITING + POST_FLAG_MALFUNCTION)

#define URGENT   .from = POST_PHASE_CHARGING, .into = POST_PHASE_FINAL_DISCHARGE
#define ORDINARY .from = POST_PHASE_CHARGING, .into = POST_PHASE_RAMP_DOWN
#define EARLY    .into = POST_PHASE_WELD_CHECK
#define NO_STOP  .from = POST_PHASE_CHARGING, .into = POST_PHASE_CHARGING

/*
 * Something in the scene of a phase is different: bits of a byte, or a figure that is given. Then
 * `waits` ticks go by without a stop, and the next one stops the lead, with these flags of H'109.
 */
#define STOP(name, kind, flags_shown, ...)                                                         \
    {.reason = POST_REASON_##name, kind, .flags = (flags_shown), __VA_ARGS__}
static const struct stop {
    uint8_t reason, from, into, flags;
    uint8_t flip[BIT_BYTES];
    float volts, amperes, ohms;
    uint16_t target;
    uint8_t silent;
    unsigned waits;
} stops[] = {
    STOP(EMERGENCY_BUTTON, URGENT, WAITING, .flip[CONTACTS] = POST_CONTACT_EMERGENCY_BUTTON),
    STOP(UNPLUGGED, URGENT, WAITING, .flip[CONTACTS] = POST_CONTACT_PLUG),
    STOP(GROUND_FAULT, URGENT, BROKEN, .flip[CONTACTS] = POST_CONTACT_GROUND_FAULT),
    STOP(PERMISSION_OPEN, URGENT, WAITING, .flip[CONTACTS] = POST_CONTACT_PERMISSION),
    STOP(BAD_READING, URGENT, BROKEN, .flip[PRESENT] = POST_PRESENT_VOLTS),
    STOP(BAD_READING, URGENT, BROKEN, .flip[PRESENT] = POST_PRESENT_AMPERES),
    STOP(OVERVOLTAGE, URGENT, BROKEN, .volts = 414.625F),
    STOP(OVERCURRENT, URGENT, BROKEN, .amperes = 127.375F),
    STOP(UNLOCKED, URGENT, BROKEN - POST_FLAG_LOCKED, .flip[CONTACTS] = POST_CONTACT_LOCK),
    STOP(CAR_SILENT, ORDINARY, RAMPING + POST_FLAG_SYSTEM_MALFUNCTION, .silent = 1, .waits = 9),
    STOP(CAR_FAULT, ORDINARY, RAMPING, .flip[FAULTS] = POST_FAULTS_MASK),
    STOP(CAR_FAULT, ORDINARY, RAMPING, .flip[STATUS] = POST_STATUS_SYSTEM_FAULT),
    STOP(INCOMPATIBLE_VOLTAGE, ORDINARY, RAMPING + POST_FLAG_INCOMPATIBLE, .target = 401),
    STOP(NOT_IN_PARK, ORDINARY, RAMPING, .flip[STATUS] = POST_STATUS_NOT_IN_PARK),
    STOP(NOT_ENABLED, ORDINARY, RAMPING, .flip[STATUS] = POST_STATUS_ENABLED),
    STOP(STOP_REQUEST, ORDINARY, RAMPING, .flip[STATUS] = POST_STATUS_STOP_REQUEST),
    STOP(CONTACTOR_OPEN, ORDINARY, RAMPING, .flip[STATUS] = POST_STATUS_CONTACTOR_OPEN),
    STOP(STOP_BUTTON, ORDINARY, RAMPING, .flip[CONTACTS] = POST_CONTACT_STOP_BUTTON),
    STOP(LOW_INSULATION, EARLY, BROKEN, .from = POST_PHASE_INSULATION_TEST,
         .flip[PRESENT] = POST_PRESENT_INSULATION, .ohms = 39999),
    STOP(PHASE_TIMEOUT, EARLY, POST_FLAG_STOP_CONTROL + POST_FLAG_SYSTEM_MALFUNCTION,
         .from = POST_PHASE_LOCKING, .waits = 20),
    STOP(CHARGING_TIME_OVER, ORDINARY, RAMPING, .waits = 1200),
    STOP(NONE, NO_STOP, CHARGING, .flip[CONTACTS] = POST_CONTACT_START_BUTTON),
};
enum { STOPS = sizeof stops / sizeof *stops };

/* What two of these rows do by themselves, in one tick: the other kind of stop with this reason. It
 * stands apart, as in the table no bit has two names. */
static const struct stop withdrawal =
    STOP(NOT_ENABLED, URGENT, WAITING, .flip[CONTACTS] = POST_CONTACT_PERMISSION,
         .flip[STATUS] = POST_STATUS_ENABLED);

static struct scene changed(const struct stop *stop) {
    struct scene scene = way[stop->from].scene;
    for (unsigned i = 0; i < BIT_BYTES; i++)
        scene.byte[i] ^= stop->flip[i];
    scene.volts = stop->volts > 0 ? stop->volts : scene.volts;
    scene.amperes = stop->amperes > 0 ? stop->amperes : scene.amperes;
    scene.ohms = stop->ohms > 0 ? stop->ohms : scene.ohms;
    scene.target = stop->target > 0 ? stop->target : scene.target;
    scene.frames = stop->silent ? 0 : scene.frames;
    return scene;
}

static void try_stop(const struct stop *stop) {
    struct scene scene = changed(stop);
    about("reason", stop->reason);
    reach(stop->from);
    for (unsigned i = 0; i < stop->waits; i++) {
        CHECK(tick_scene(&scene), POST_DONE);
        CHECK(output_at(POST_OUTPUT_REASON, 1), POST_REASON_NONE);
    }
    CHECK(tick_scene(&scene), POST_DONE);
    CHECK(output_at(POST_OUTPUT_REASON, 1), stop->reason);
    CHECK(output_at(POST_OUTPUT_PHASE, 1), stop->into);
    CHECK(output_at(POST_OUTPUT_H109 + POST_H109_FLAGS, 1), stop->flags);
}

/* A bit without a name is spare in the bytes of the lead, and unused in those of the car. */
static void try_unnamed_bit(unsigned byte, uint8_t bit) {
    struct stop stop = {.reason = POST_REASON_NONE, NO_STOP, .flags = CHARGING};
    stop.flip[byte] = bit;
    if (byte == CONTACTS || byte == PRESENT) {
        struct scene scene = changed(&stop);
        about("unnamed bit", bit);
        reach(stop.from);
        CHECK(tick_scene(&scene), POST_REFUSED_INPUT);
    } else {
        try_stop(&stop);
    }
}

/* A bit does alone what the row that names it says, and no bit has two names. */
static void try_bit(unsigned byte, uint8_t bit) {
    unsigned names = 0;
    for (unsigned i = 0; i < STOPS; i++) {
        struct stop stop = stops[i];
        if (stop.flip[byte] & bit) {
            names++;
            stop.flip[byte] = bit;
            try_stop(&stop);
        }
    }
    if (names == 0)
        try_unnamed_bit(byte, bit);
    about("bit", bit);
    CHECK(names <= 1, 1);
}

void try_stops(void) {
    for (unsigned i = 0; i < STOPS; i++)
        try_stop(&stops[i]);
    try_stop(&withdrawal);
    for (unsigned byte = 0; byte < BIT_BYTES; byte++)
        for (unsigned bit = 0; bit < 8; bit++)
            try_bit(byte, (uint8_t)(1U << bit));
}
