/* Every refusal, at the edges of what is taken; a refused call changes no byte. */
#include "trial.h"

#include <stddef.h>
#include <string.h>

static uint8_t kept_state[ROOM], kept_output[ROOM];

static void keep_bytes(void) {
    memcpy(kept_state, state, sizeof state);
    memcpy(kept_output, output, sizeof output);
}

static void check_answer(uint32_t answer, uint32_t expected) {
    CHECK(answer, expected);
    if (expected != POST_DONE) {
        CHECK(memcmp(kept_state, state, sizeof state), 0);
        CHECK(memcmp(kept_output, output, sizeof output), 0);
    }
}

/* Setup's numbers, in the order of its arguments. */
struct numbers {
    uint32_t leads, volts, amperes, resistance, volts_error, amperes_error;
};
static const struct numbers usual = {LEADS, 400, 125, 0, 0, 0};

static void try_setup(struct numbers n, size_t length, uint32_t answer) {
    keep_bytes();
    check_answer(post_setup(n.leads, n.volts, n.amperes, n.resistance, n.volts_error,
                            n.amperes_error, state, length),
                 answer);
}

static void try_tick(size_t state_length, size_t input_length, size_t output_length,
                     uint32_t answer) {
    keep_bytes();
    check_answer(post_tick(state, state_length, input, input_length, output, output_length),
                 answer);
}

/* Each number from 0 to past the end of its range, the others allowed. */
static void try_numbers(void) {
    static const struct {
        size_t place;
        uint32_t least, most, refusal;
    } ranges[] = {
        {offsetof(struct numbers, leads), POST_LEADS_MIN, POST_LEADS_MAX, POST_REFUSED_LEADS},
        {offsetof(struct numbers, volts), POST_RATED_VOLTS_MIN, POST_RATED_VOLTS_MAX,
         POST_REFUSED_RATED_VOLTS},
        {offsetof(struct numbers, amperes), POST_RATED_AMPERES_MIN, POST_RATED_AMPERES_MAX,
         POST_REFUSED_RATED_AMPERES},
        {offsetof(struct numbers, volts_error), 0, POST_METER_ERROR_MAX, POST_REFUSED_METER_ERROR},
        {offsetof(struct numbers, amperes_error), 0, POST_METER_ERROR_MAX,
         POST_REFUSED_METER_ERROR},
    };
    for (unsigned i = 0; i < sizeof ranges / sizeof *ranges; i++)
        for (uint32_t value = 0; value <= ranges[i].most + 1; value++) {
            int is_good = value >= ranges[i].least && value <= ranges[i].most;
            struct numbers numbers = usual;
            memcpy((uint8_t *)&numbers + ranges[i].place, &value, sizeof value);
            about("number", value);
            try_setup(numbers, POST_STATE_LENGTH(numbers.leads),
                      is_good ? POST_DONE : ranges[i].refusal);
        }
}

static void try_resistances(void) {
    static const struct {
        uint32_t bits, answer;
    } rows[] = {
        {0x3F800000, POST_DONE},                     /* 1 */
        {0x3F800001, POST_REFUSED_CABLE_RESISTANCE}, /* the next float */
        {0x7FC00000, POST_REFUSED_CABLE_RESISTANCE}, /* no number */
    };
    for (unsigned i = 0; i < sizeof rows / sizeof *rows; i++) {
        struct numbers numbers = usual;
        numbers.resistance = rows[i].bits;
        about("resistance", rows[i].bits);
        try_setup(numbers, POST_STATE_LENGTH(LEADS), rows[i].answer);
    }
}

/* An error is looked at whole, behind the resistance and before the length. */
static void try_errors(void) {
    static const uint32_t large[] = {POST_METER_ERROR_MAX + 1, 256, 65536, UINT32_MAX};
    for (unsigned i = 0; i < 2 * (sizeof large / sizeof *large); i++) {
        struct numbers numbers = usual;
        *(i % 2 == 0 ? &numbers.volts_error : &numbers.amperes_error) = large[i / 2];
        about("error", large[i / 2]);
        try_setup(numbers, 0, POST_REFUSED_METER_ERROR);
        numbers.resistance = 0x3F800001;
        try_setup(numbers, 0, POST_REFUSED_CABLE_RESISTANCE);
    }
}

static size_t wrong(size_t length, unsigned way) {
    return way == 0 ? 0 : way == 1 ? length - 1 : length + 1;
}

/* Each length wrong in three ways, the others right. */
static void try_lengths(uint32_t leads) {
    size_t of_state = POST_STATE_LENGTH(leads), of_input = POST_INPUT_LENGTH(leads);
    size_t of_output = POST_OUTPUT_LENGTH(leads);
    struct numbers numbers = usual;
    numbers.leads = leads;
    about("lengths for leads", leads);
    memset(input, 0, sizeof input);
    for (unsigned i = 0; i < 3; i++)
        try_setup(numbers, wrong(of_state, i), POST_REFUSED_STATE_LENGTH);
    try_setup(numbers, of_state, POST_DONE);
    for (unsigned i = 0; i < 3; i++) {
        try_tick(wrong(of_state, i), of_input, of_output, POST_REFUSED_STATE);
        try_tick(of_state, wrong(of_input, i), of_output, POST_REFUSED_INPUT_LENGTH);
        try_tick(of_state, of_input, wrong(of_output, i), POST_REFUSED_OUTPUT_LENGTH);
    }
    try_tick(of_state, of_input, of_output, POST_DONE);
}

/* Each pointer NULL, alone and with others, its length given and 0: the first refusal counts. */
static void try_nulls(void) {
    static const size_t lengths[2][3] = {
        {0, 0, 0}, {POST_STATE_LENGTH(LEADS), POST_INPUT_LENGTH(LEADS), POST_OUTPUT_LENGTH(LEADS)}};
    set_up();
    memset(input, 0, sizeof input);
    for (unsigned nulls = 1; nulls < 8; nulls++)
        for (unsigned full = 0; full < 2; full++) {
            int no_state = nulls & 1, no_input = nulls & 2, no_output = nulls & 4;
            about("nulls", nulls);
            keep_bytes();
            check_answer(post_tick(no_state ? NULL : state, lengths[full || !no_state][0],
                                   no_input ? NULL : input, lengths[full || !no_input][1],
                                   no_output ? NULL : output, lengths[full || !no_output][2]),
                         no_state   ? POST_REFUSED_STATE
                         : no_input ? POST_REFUSED_INPUT_LENGTH
                                    : POST_REFUSED_OUTPUT_LENGTH);
            check_answer(post_setup(LEADS, 400, 125, 0, 0, 0, NULL, lengths[full][0]),
                         POST_REFUSED_STATE_LENGTH);
            check_answer(post_setup(0, 400, 125, 0, 0, 0, NULL, lengths[full][0]),
                         POST_REFUSED_LEADS);
        }
}

static void try_bytes(uint32_t answer) {
    try_tick(POST_STATE_LENGTH(LEADS), POST_INPUT_LENGTH(LEADS), POST_OUTPUT_LENGTH(LEADS), answer);
}

/* A 1 in a byte of an idle lead: no reason, no command without charging, no threshold, spare. The
 * energy may be any number, a spare byte only 0: there every other value is tried too. */
static void try_state_bytes(void) {
    memset(input, 0, sizeof input);
    for (size_t i = 0; i < POST_LEAD_LENGTH; i++) {
        int is_bad = i == POST_LEAD_REASON || i == POST_LEAD_COMMAND || i == POST_LEAD_THRESHOLD ||
                     i >= POST_LEAD_SPARE;
        unsigned most = i < POST_LEAD_ENERGY ? 1 : 0xFF;
        about("state byte", i);
        for (unsigned value = 1; value <= most; value++) {
            set_up();
            state[POST_STATE_LEAD(LEAD) + i] = (uint8_t)value;
            try_bytes(is_bad ? POST_REFUSED_STATE : POST_DONE);
        }
    }
}

/* Every value of the head's two errors. */
static void try_error_bytes(void) {
    static const size_t places[2] = {POST_HEAD_VOLTS_ERROR, POST_HEAD_AMPERES_ERROR};
    memset(input, 0, sizeof input);
    for (unsigned i = 0; i < 2; i++)
        for (unsigned value = 0; value < 256; value++) {
            about("error byte", value);
            set_up();
            state[places[i]] = (uint8_t)value;
            try_bytes(value <= POST_METER_ERROR_MAX ? POST_DONE : POST_REFUSED_STATE);
        }
}

/* Every value of every byte: bad are spare bits, a spare byte, and more frames than records. */
static void try_input_bytes(void) {
    for (size_t i = 0; i < POST_INPUT_LEAD_LENGTH; i++) {
        unsigned most = i == POST_INPUT_CONTACTS      ? 0x7F
                        : i == POST_INPUT_PRESENT     ? 0x07
                        : i == POST_INPUT_FRAME_COUNT ? POST_FRAME_RECORDS
                        : i == POST_INPUT_SPARE       ? 0
                                                      : 0xFF;
        about("input byte", i);
        memset(input, 0, sizeof input);
        for (unsigned value = 0; value < 256; value++) {
            set_up();
            input[POST_INPUT_LEAD(LEAD) + i] = (uint8_t)value;
            try_bytes(value <= most ? POST_DONE : POST_REFUSED_INPUT);
        }
    }
}

void try_refusals(void) {
    try_numbers();
    try_resistances();
    try_errors();
    for (uint32_t leads = POST_LEADS_MIN; leads <= POST_LEADS_MAX; leads++)
        try_lengths(leads);
    try_nulls();
    try_state_bytes();
    try_error_bytes();
    try_input_bytes();
}
