/* What an accepted text leaves: its orders, in the order of its lines, and unused places. */
#include "trial.h"

#include <stdio.h>
#include <string.h>

static void put_number(size_t place, size_t number, uint32_t value) {
    uint8_t *at = expected.orders + AHEAD + ORDERS_PLACE(place) + number;
    for (unsigned i = 0; i < 4; i++)
        at[i] = (uint8_t)(value >> (8 * i));
}

static void put_order(size_t place, uint32_t number, uint32_t first, uint32_t last,
                      uint32_t watts) {
    put_number(place, ORDERS_NUMBER, number);
    put_number(place, ORDERS_FIRST_TICK, first);
    put_number(place, ORDERS_LAST_TICK, last);
    put_number(place, ORDERS_WATTS, watts);
}

/* "unused places 0 with first tick 1" */
static void expect_unused(size_t from) {
    for (size_t place = from; place < ORDERS_PLACES; place++)
        put_order(place, 0, 1, 0, 0);
}

static void check_taken(const char *text) {
    CHECK_NAMED(text, take(text, ORDERS_LENGTH), ORDERS_DONE);
    check_bytes("taken", &rooms, &expected, sizeof rooms, AHEAD);
}

/* The longest text that is accepted: four numbers of ten digits in each of 64 lines. */
static void try_longest(void) {
    char text[ORDERS_TEXT_MAX + 1];
    for (unsigned i = 0; i < ORDERS_PLACES; i++) {
        uint32_t number = 4294967295 - i;
        sprintf(text + 44 * i, "%lu\t4294967295\t4294967295\t4294967295\n", (unsigned long)number);
        put_order(i, number, 4294967295, 4294967295, 4294967295);
    }
    CHECK(strlen(text), ORDERS_TEXT_MAX);
    check_taken(text);
}

/* Text after text on the same bytes: each replaces all that was there. */
void try_places(void) {
    CHECK(ORDERS_LENGTH, 1024);
    CHECK(ORDERS_TICKS_PER_HOUR, 60 * 60 * 10);
    fill();
    expect_unused(0);
    check_taken("");
    for (unsigned i = 0; i < ORDERS_PLACES; i++)
        put_order(i, i, 0, 9, 1000 + i);
    check_taken(numbered(ORDERS_PLACES, ""));
    try_longest();
    put_order(0, 0x01020304, 0x05060708, 0x0A0B0C0D, 0xFFFFFFFF);
    put_order(1, 7, 0, 0, 1);
    expect_unused(2);
    check_taken("16909060\t84281096\t168496141\t4294967295\n7\t0\t0\t1\n");
    CHECK(take("7\t0\t0\t2\n7\t0\t0\t3\n", ORDERS_LENGTH), ORDERS_REFUSED_NUMBER_USED);
    check_bytes("kept", &rooms, &expected, sizeof rooms, AHEAD);
    expect_unused(0);
    check_taken("");
}
