/*
 * What the functions that end in _checked hand on. The library refuses an empty buffer at any
 * address, so its answers cannot show a NULL; here the calls are others, which look.
 */
#define receiver_power_up seen_power_up
#define receiver_read     seen_read
#define receiver_write    seen_write
#define receiver_arrive   seen_arrive
#define receiver_drain    seen_drain
#define receiver_line     seen_line
#include "trial.h"

enum { LENGTH = 71, LENT_LENGTH = 5, REGISTER = 0x12345678, VALUE = 0xC3 };

static uint8_t receiver[LENGTH], lent[LENT_LENGTH];
static bool no_receiver, no_lent;

/* A NULL has become an empty buffer at some other address, and the rest is as it was handed in. */
static void see(const uint8_t *at, size_t length) {
    CHECK(at != NULL && at != lent, true);
    CHECK(at == receiver, !no_receiver);
    CHECK(length, no_receiver ? 0 : LENGTH);
}

static void see_both(const uint8_t *at, size_t length, const uint8_t *other, size_t other_length) {
    see(at, length);
    CHECK(other != NULL && other != receiver && other != at, true);
    CHECK(other == lent, !no_lent);
    CHECK(other_length, no_lent ? 0 : LENT_LENGTH);
}

uint32_t receiver_power_up(uint8_t *at, size_t length) {
    see(at, length);
    return 1;
}

uint32_t receiver_read(const uint8_t *at, size_t length, uint32_t number, uint8_t *value,
                       size_t value_length) {
    CHECK(number, REGISTER);
    see_both(at, length, value, value_length);
    return 2;
}

uint32_t receiver_write(uint8_t *at, size_t length, uint32_t number, uint8_t value) {
    CHECK(number, REGISTER);
    CHECK(value, VALUE);
    see(at, length);
    return 3;
}

uint32_t receiver_arrive(uint8_t *at, size_t length, const uint8_t *frame, size_t frame_length) {
    see_both(at, length, frame, frame_length);
    return 4;
}

uint32_t receiver_drain(uint8_t *at, size_t length, uint8_t *frame, size_t frame_length) {
    see_both(at, length, frame, frame_length);
    return 5;
}

uint32_t receiver_line(const uint8_t *at, size_t length, uint8_t *line, size_t line_length) {
    see_both(at, length, line, line_length);
    return 6;
}

void try_wrappers(void) {
    for (unsigned nulls = 0; nulls < 4; nulls++) {
        uint8_t *first = nulls & 1 ? NULL : receiver, *second = nulls & 2 ? NULL : lent;
        no_receiver = first == NULL;
        no_lent = second == NULL;
        about("nulls", nulls);
        CHECK(receiver_power_up_checked(first, LENGTH), 1);
        CHECK(receiver_read_checked(first, LENGTH, REGISTER, second, LENT_LENGTH), 2);
        CHECK(receiver_write_checked(first, LENGTH, REGISTER, VALUE), 3);
        CHECK(receiver_arrive_checked(first, LENGTH, second, LENT_LENGTH), 4);
        CHECK(receiver_drain_checked(first, LENGTH, second, LENT_LENGTH), 5);
        CHECK(receiver_line_checked(first, LENGTH, second, LENT_LENGTH), 6);
    }
}
