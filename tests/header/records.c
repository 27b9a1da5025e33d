/* Numbers in bytes, every place of the state, and the frame records of the input. */
#include "trial.h"

#include <string.h>

#define STATUS_KEPT (UNUSED_STATUS + POST_STATUS_ENABLED)
#define ALL_SEEN    (POST_SEEN_H100 + POST_SEEN_H101 + POST_SEEN_H102)
#define COMMANDED   (2 + 4 + 6 + 8 + 10 + 12) /* amperes, tick by tick */

/* What the state holds after two quiet ticks of charging, and then in the tick of a stop. */
static const struct place {
    const char *name;
    size_t place, length;
    uint64_t values[2];
} places[] = {
    {NAMED(POST_LEAD_PHASE), 1, {POST_PHASE_CHARGING, POST_PHASE_RAMP_DOWN}},
    {NAMED(POST_LEAD_REASON), 1, {POST_REASON_NONE, POST_REASON_STOP_BUTTON}},
    {NAMED(POST_LEAD_COMMAND), 1, {12, 2}},
    {NAMED(POST_LEAD_REQUEST), 1, {REQUEST, REQUEST}},
    {NAMED(POST_LEAD_FAULTS), 1, {UNUSED_FAULTS, UNUSED_FAULTS}},
    {NAMED(POST_LEAD_STATUS), 1, {STATUS_KEPT, STATUS_KEPT}},
    {NAMED(POST_LEAD_SILENCE), 1, {2, 3}},
    {NAMED(POST_LEAD_SEEN), 1, {ALL_SEEN, ALL_SEEN}},
    {NAMED(POST_LEAD_THRESHOLD), 2, {RATED_VOLTS, RATED_VOLTS}},
    {NAMED(POST_LEAD_MAXIMUM_VOLTAGE), 2, {MAXIMUM_VOLTAGE, MAXIMUM_VOLTAGE}},
    {NAMED(POST_LEAD_TARGET_VOLTAGE), 2, {TARGET_VOLTAGE, TARGET_VOLTAGE}},
    {NAMED(POST_LEAD_TIME_TENS), 1, {TIME_TENS, TIME_TENS}},
    {NAMED(POST_LEAD_TIME_MINUTES), 1, {TIME_MINUTES, TIME_MINUTES}},
    {NAMED(POST_LEAD_AGE), 4, {5, 0}},
    {NAMED(POST_LEAD_ENERGY), 8, {COMMANDED * RATED_VOLTS, (COMMANDED + 2) * RATED_VOLTS}},
};

/* The places follow each other up to the spare bytes. */
static void check_places(unsigned column) {
    size_t end = 0;
    about("column", column);
    for (const struct place *at = places; at < places + sizeof places / sizeof *places; at++) {
        CHECK_NAMED(at->name, at->place, end);
        CHECK_NAMED(at->name, state_at(at->place, at->length), at->values[column]);
        end += at->length;
    }
    CHECK(end, POST_LEAD_SPARE);
}

/* The header's own functions, at an odd address: what stands beside the number is left alone. */
static void try_helpers(void) {
    static const struct {
        uint32_t bits;
        float number;
    } floats[] = {{0, 0}, {0x80000000, -0.0F}, {0x3D800000, 0.0625F}, {0x4B7FFFFE, 16777214}};
    uint8_t bytes[10];
    memset(bytes, 1, sizeof bytes);
    for (unsigned i = 0; i <= 0xFFFF; i++) {
        about("number", i);
        post_put_u16(bytes + 1, (uint16_t)i);
        CHECK(bytes[1] + 256 * bytes[2], i);
        CHECK(post_get_u16(bytes + 1), i);
        CHECK(bytes[0] + bytes[3], 2);
    }
    for (unsigned i = 0; i < sizeof floats / sizeof *floats; i++) {
        about("float", i);
        post_put_float(bytes + 1, floats[i].number);
        CHECK(post_get_u16(bytes + 1) + 65536UL * post_get_u16(bytes + 3), floats[i].bits);
        CHECK(post_get_u32(bytes + 1), floats[i].bits);
        CHECK(post_float_bits(post_get_float(bytes + 1)), floats[i].bits);
        CHECK(bytes[0] + bytes[5], 2);
    }
    for (unsigned i = 0; i < 8; i++) {
        about("byte", i);
        memset(bytes + 1, 0, 8);
        bytes[1 + i] = 0xFF;
        CHECK(post_get_u64(bytes + 1), (uint64_t)0xFF << 8 * i);
    }
}

static void try_head(void) {
    about("head", 0);
    set_up();
    CHECK(state[POST_HEAD_LEADS], LEADS);
    CHECK(state[POST_HEAD_RATED_AMPERES], RATED_AMPERES);
    CHECK(post_get_u16(state + POST_HEAD_RATED_VOLTS), RATED_VOLTS);
    CHECK(post_get_u32(state + POST_HEAD_CABLE_RESISTANCE), CABLE_RESISTANCE);
    CHECK(state[POST_HEAD_VOLTS_ERROR], VOLTS_ERROR);
    CHECK(state[POST_HEAD_AMPERES_ERROR], AMPERES_ERROR);
}

/* A tick without H'102 in a phase, and the silence before and after it. */
static void try_silence(void) {
    static const struct {
        uint8_t phase, before, after;
    } rows[] = {
        {POST_PHASE_IDLE, 7, 7},       {POST_PHASE_HANDSHAKE, 0, 1},
        {POST_PHASE_WELD_CHECK, 7, 8}, {POST_PHASE_HANDSHAKE, 255, 255},
        {POST_PHASE_ENDED, 7, 7},      {POST_PHASE_FINAL_DISCHARGE, 7, 7},
    };
    for (unsigned i = 0; i < sizeof rows / sizeof *rows; i++) {
        struct scene scene = way[rows[i].phase].scene;
        scene.frames = 0;
        about("silence in phase", rows[i].phase);
        reach(rows[i].phase);
        state[POST_STATE_LEAD(LEAD) + POST_LEAD_SILENCE] = rows[i].before;
        CHECK(tick_scene(&scene), POST_DONE);
        CHECK(state_at(POST_LEAD_SILENCE, 1), rows[i].after);
    }
}

/* The energy after a tick with the scene of phase `into`, in phase `from` with this energy. */
static uint64_t energy_after(unsigned from, unsigned into, uint64_t energy) {
    uint8_t *place = state + POST_STATE_LEAD(LEAD) + POST_LEAD_ENERGY;
    reach(from);
    post_put_u32(place, (uint32_t)(energy & 0xFFFFFFFF));
    post_put_u32(place + 4, (uint32_t)(energy >> 32));
    CHECK(tick_scene(&way[into].scene), POST_DONE);
    return state_at(POST_LEAD_ENERGY, 8);
}

/* Each phase kept and left: 2 A are commanded on the move into charging, 4 A in the tick after it.
 * Then what 2 A bring it to: a carry through all bytes, and the largest value, which remains. */
static void try_energy(void) {
    static const uint64_t some = 0x0102030405060708;
    static const struct {
        uint64_t before, after;
    } rows[] = {
        {0x00FFFFFFFFFFFFFF, 0x0100000000000000 + 2 * RATED_VOLTS - 1},
        {UINT64_MAX - 2 * RATED_VOLTS, UINT64_MAX},
        {UINT64_MAX - 1, UINT64_MAX},
        {UINT64_MAX, UINT64_MAX},
    };
    for (unsigned i = 0; i < PHASES; i++) {
        about("energy in phase", i);
        CHECK(energy_after(i, i, some), some + (i == POST_PHASE_CHARGING ? 4 * RATED_VOLTS : 0));
        CHECK(energy_after(i, (i + 1) % PHASES, some),
              i == POST_PHASE_IDLE                ? 0
              : i == POST_PHASE_CONTACTOR_CLOSING ? some + 2 * RATED_VOLTS
                                                  : some);
    }
    for (unsigned i = 0; i < sizeof rows / sizeof *rows; i++) {
        about("energy in row", i);
        CHECK(energy_after(POST_PHASE_CONTACTOR_CLOSING, POST_PHASE_CHARGING, rows[i].before),
              rows[i].after);
    }
    about("energy after setup", 0);
    set_up();
    CHECK(state_at(POST_LEAD_ENERGY, 8), 0);
}

static void try_places(void) {
    struct scene talking = way[POST_PHASE_CHARGING].scene;
    struct scene quiet = talking;
    quiet.frames = 0;
    reach(POST_PHASE_CHARGING);
    for (unsigned i = 0; i < 5; i++)
        CHECK(tick_scene(i < 3 ? &talking : &quiet), POST_DONE);
    check_places(0);
    quiet.byte[CONTACTS] |= POST_CONTACT_STOP_BUTTON;
    CHECK(tick_scene(&quiet), POST_DONE);
    check_places(1);
}

/* The frames seen after one frame in the last record. */
static uint64_t seen_after(uint16_t identifier, uint8_t length, uint8_t count) {
    static const uint8_t data[POST_FRAME_DATA_LENGTH];
    uint8_t *lead = input + POST_INPUT_LEAD(LEAD);
    uint8_t *frame = lead + POST_INPUT_FRAME(POST_FRAME_RECORDS - 1);
    reach(POST_PHASE_HANDSHAKE);
    put_scene(&way[POST_PHASE_HANDSHAKE].scene);
    put_frame(frame, identifier, data);
    frame[POST_FRAME_LENGTH] = length;
    lead[POST_INPUT_FRAME_COUNT] = count;
    CHECK(tick_input(), POST_DONE);
    return state_at(POST_LEAD_SEEN, 1);
}

static void try_frames(void) {
    for (unsigned i = 0; i <= 0xFFFF; i++) {
        unsigned seen = i == POST_H100 ? POST_SEEN_H100 : i == POST_H101 ? POST_SEEN_H101 : 0;
        about("identifier", i);
        CHECK(seen_after((uint16_t)i, POST_FRAME_DATA_LENGTH, POST_FRAME_RECORDS),
              i == POST_H102 ? POST_SEEN_H102 : seen);
    }
    for (unsigned i = 0; i < 256; i++) {
        about("length", i);
        CHECK(seen_after(POST_H102, (uint8_t)i, POST_FRAME_RECORDS),
              i == POST_FRAME_DATA_LENGTH ? POST_SEEN_H102 : 0);
    }
    about("count", POST_FRAME_RECORDS - 1);
    CHECK(seen_after(POST_H102, POST_FRAME_DATA_LENGTH, POST_FRAME_RECORDS - 1), 0);
}

/*
 * What no answer of the library can show: it never names the frames that it sends, it takes volts
 * and amperes only together, and it counts no kilowatt-hours. Document 01's numbers and its order
 * stand for it here, and a thousand watts for an hour of seconds, ten ticks each. The edition of
 * the state is that of the places above: whoever changes these raises it.
 */
static void try_unseen(void) {
    about("document", 1);
    CHECK(POST_H108, 0x108);
    CHECK(POST_H109, 0x109);
    CHECK(POST_PRESENT_VOLTS < POST_PRESENT_AMPERES, 1);
    CHECK(POST_WATT_TICKS_PER_KWH, 1000 * 3600 * 10);
    CHECK(POST_STATE_VERSION, 3);
}

void try_records(void) {
    try_helpers();
    try_head();
    try_places();
    try_silence();
    try_energy();
    try_frames();
    try_unseen();
}
