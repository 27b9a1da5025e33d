/*
 * What the _checked calls hand on. The library takes an empty text at any address, so its answers
 * cannot show a NULL; here the calls are others, which look.
 */
#define take_orders seen_take_orders
#define refused_line seen_refused_line
#include "trial.h"

enum { TEXT_BYTES = 71, ORDERS_BYTES = 5 };

static uint8_t text[TEXT_BYTES], orders[ORDERS_BYTES];
static bool no_text, no_orders;

/* A NULL has become an empty buffer at some other address, and the rest is as it was handed in. */
static void check_text(const uint8_t *at, size_t length) {
    CHECK(at != NULL && at != orders, true);
    CHECK(at == text, !no_text);
    CHECK(length, no_text ? 0 : TEXT_BYTES);
}

uint32_t take_orders(const uint8_t *at, size_t length, uint8_t *other, size_t other_length) {
    check_text(at, length);
    CHECK(other != NULL && other != text && other != at, true);
    CHECK(other == orders, !no_orders);
    CHECK(other_length, no_orders ? 0 : ORDERS_BYTES);
    return 7;
}

uint32_t refused_line(const uint8_t *at, size_t length) {
    check_text(at, length);
    return 8;
}

void try_wrappers(void) {
    for (unsigned nulls = 0; nulls < 4; nulls++) {
        no_text = nulls & 1;
        no_orders = nulls & 2;
        about("nulls", nulls);
        CHECK(take_orders_checked(no_text ? NULL : text, TEXT_BYTES, no_orders ? NULL : orders,
                                  ORDERS_BYTES),
              7);
        CHECK(refused_line_checked(no_text ? NULL : text, TEXT_BYTES), 8);
    }
}
