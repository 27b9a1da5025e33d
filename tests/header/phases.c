/* Every phase, with all that a lead shows in it: the whole output, both frames included. Volts and
 * amperes that a move wants to be low are as high as their meter's error allows. */
#include "trial.h"

#include <string.h>

#define PLUGGED   POST_CONTACT_PLUG
#define STARTED   (PLUGGED | POST_CONTACT_START_BUTTON)
#define PERMITTED (PLUGGED | POST_CONTACT_PERMISSION)
#define LOCKED    (PERMITTED | POST_CONTACT_LOCK)
#define STOPPED   (LOCKED | POST_CONTACT_STOP_BUTTON)
#define METER     (POST_PRESENT_VOLTS | POST_PRESENT_AMPERES)
#define MEASURED  (METER | POST_PRESENT_INSULATION)

/* Faults and status of the car. */
#define CLOSED UNUSED_FAULTS, (UNUSED_STATUS | POST_STATUS_ENABLED)
#define OPEN   UNUSED_FAULTS, (UNUSED_STATUS | POST_STATUS_ENABLED | POST_STATUS_CONTACTOR_OPEN)

/* Its frames, charging time and target voltage. */
#define SILENT 0, 0, 0
#define TALKS  (POST_SEEN_H100 | POST_SEEN_H101 | POST_SEEN_H102), TIME_TENS, TARGET_VOLTAGE

/* What the host is to switch; added up as the flags are. */
#define SEND POST_SWITCH_FRAMES
#define D1   POST_SWITCH_D1
#define D2   POST_SWITCH_D2
#define LOCK POST_SWITCH_LOCK

const struct row way[PHASES] = {
    {POST_PHASE_IDLE, {{0, METER, OPEN}, 20, 8, 0, TALKS}, 0, 0, 0, 0, 0, 0, 0},
    {POST_PHASE_HANDSHAKE, {{STARTED, METER, OPEN}, 20, 8, 0, SILENT},
     SEND + D1, POST_FLAG_STOP_CONTROL, 0, 0, 18, 8, 0},
    {POST_PHASE_LOCKING, {{PERMITTED, METER, OPEN}, 20, 8, 0, TALKS},
     SEND + D1 + LOCK, POST_FLAG_STOP_CONTROL, 0, 400, 18, 8, 12},
    {POST_PHASE_INSULATION_TEST, {{LOCKED, METER, OPEN}, 399, 4, 0, TALKS},
     SEND + D1 + LOCK, WAITING, 400, 400, 398, 4, 12},
    {POST_PHASE_TEST_DISCHARGE, {{LOCKED, MEASURED, OPEN}, 399, 4, 40000, TALKS},
     SEND + D1 + LOCK, WAITING, 0, 400, 398, 4, 12},
    {POST_PHASE_CONTACTOR_CLOSING, {{LOCKED, METER, OPEN}, 11.625F, 8, 0, TALKS},
     SEND + D1 + D2 + LOCK, WAITING, 0, 400, 10, 8, 12},
    {POST_PHASE_CHARGING, {{LOCKED, METER, CLOSED}, 395.25F, 59.5F, 0, TALKS},
     SEND + D1 + D2 + LOCK, CHARGING, 0, 400, 381, 60, 12},
    {POST_PHASE_RAMP_DOWN, {{STOPPED, METER, CLOSED}, 395, 60, 0, TALKS},
     SEND + D1 + D2 + LOCK, RAMPING, 0, 400, 380, 60, 0},
    {POST_PHASE_WELD_CHECK, {{LOCKED, METER, CLOSED}, 395, 4.625F, 0, TALKS},
     SEND + D1 + D2 + LOCK, WAITING, 0, 400, 394, 5, 0},
    {POST_PHASE_FINAL_DISCHARGE, {{LOCKED, METER, OPEN}, 395, 4, 0, TALKS},
     SEND + LOCK, WAITING, 0, 400, 394, 4, 0},
    {POST_PHASE_ENDED, {{PLUGGED, METER, OPEN}, 10.625F, 4, 0, TALKS}, 0, 0, 0, 0, 0, 0, 0},
};

static void check_output(const struct row *row, uint8_t reason) {
    int sent = row->switches != 0;
    const struct {
        const char *name;
        size_t place, length;
        uint32_t value;
    } parts[] = {
        {NAMED(POST_OUTPUT_PHASE), 1, row->phase},
        {NAMED(POST_OUTPUT_REASON), 1, reason},
        {NAMED(POST_OUTPUT_COMMAND), 1, row->phase == POST_PHASE_CHARGING ? 2 : 0},
        {NAMED(POST_OUTPUT_SWITCHES), 1, row->switches},
        {NAMED(POST_OUTPUT_TEST_VOLTS), 2, row->test_volts},
        {NAMED(POST_OUTPUT_SPARE), 2, 0},
        {NAMED(POST_OUTPUT_H108 + POST_H108_WELD_DETECTION), 1, sent ? 1 : 0},
        {NAMED(POST_OUTPUT_H108 + POST_H108_RATED_VOLTS), 2, sent ? RATED_VOLTS : 0},
        {NAMED(POST_OUTPUT_H108 + POST_H108_OFFERED_AMPERES), 1, sent ? RATED_AMPERES : 0},
        {NAMED(POST_OUTPUT_H108 + POST_H108_THRESHOLD), 2, row->threshold},
        {NAMED(POST_OUTPUT_H109 + POST_H109_PROTOCOL), 1, sent ? 2 : 0},
        {NAMED(POST_OUTPUT_H109 + POST_H109_VOLTS), 2, row->volts},
        {NAMED(POST_OUTPUT_H109 + POST_H109_AMPERES), 1, row->amperes},
        {NAMED(POST_OUTPUT_H109 + POST_H109_FLAGS), 1, row->flags},
        {NAMED(POST_OUTPUT_H109 + POST_H109_TIME_TENS), 1, row->tens},
        {NAMED(POST_OUTPUT_H109 + POST_H109_TIME_MINUTES), 1, 0},
    };
    /* The names of each byte: one, but none for bytes 6 and 7 of H'108 and byte 4 of H'109. */
    static const char expected_names[] = "11111111" "11111100" "11110111";
    char names[ROOM];
    memset(names, '0', sizeof names);
    for (size_t i = 0; i < sizeof parts / sizeof *parts; i++) {
        CHECK_NAMED(parts[i].name, output_at(parts[i].place, parts[i].length), parts[i].value);
        for (size_t j = 0; j < parts[i].length; j++)
            names[parts[i].place + j]++;
    }
    CHECK_NAMED("names of each byte", memcmp(names, expected_names, POST_OUTPUT_LEAD_LENGTH), 0);
}

/* All phases in their order and back to idle; a second tick of a scene stays in its phase. */
static void try_way(void) {
    set_up();
    for (unsigned i = 0; i <= PHASES; i++) {
        const struct row *row = &way[i % PHASES];
        about("phase", i % PHASES);
        CHECK(tick_scene(&row->scene), POST_DONE);
        check_output(row, i < 7 ? POST_REASON_NONE : POST_REASON_STOP_BUTTON);
        CHECK(tick_scene(&row->scene), POST_DONE);
        CHECK(output_at(POST_OUTPUT_PHASE, 1), row->phase);
    }
}

static void try_minutes(void) {
    struct scene scene = way[POST_PHASE_LOCKING].scene;
    about("minutes", TIME_MINUTES);
    scene.tens = POST_H101_USE_MINUTES;
    reach(POST_PHASE_HANDSHAKE);
    CHECK(tick_scene(&scene), POST_DONE);
    CHECK(output_at(POST_OUTPUT_H109 + POST_H109_TIME_TENS, 1), POST_H101_USE_MINUTES);
    CHECK(output_at(POST_OUTPUT_H109 + POST_H109_TIME_MINUTES, 1), TIME_MINUTES);
}

/* The tick that begins to charge wants 2 A, at 400 V. The car is offered what the limit carries, at
 * most the rated amperes. */
static void try_power_limit(void) {
    static const struct {
        uint32_t watts, amperes, offered;
    } limits[] = {
        {800, 2, 2},
        {799, 1, 1},
        {399, 0, 0},
        {49999, 2, RATED_AMPERES - 1},
        {50000, 2, RATED_AMPERES},
        {0x01000000, 2, RATED_AMPERES},
        {USUAL_LIMIT, 2, RATED_AMPERES},
    };
    for (unsigned i = 0; i < sizeof limits / sizeof *limits; i++) {
        about("power limit", limits[i].watts);
        power_limit = limits[i].watts;
        reach(POST_PHASE_CHARGING);
        CHECK(output_at(POST_OUTPUT_COMMAND, 1), limits[i].amperes);
        CHECK(output_at(POST_OUTPUT_H108 + POST_H108_OFFERED_AMPERES, 1), limits[i].offered);
    }
}

void try_phases(void) {
    try_way();
    try_minutes();
    try_power_limit();
}
