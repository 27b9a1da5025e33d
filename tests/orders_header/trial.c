#include "trial.h"

#include <stdio.h>
#include <string.h>

struct rooms rooms, expected;

void fill(void) {
    memset(&rooms, 0xA5, sizeof rooms);
    expected = rooms;
}

uint32_t take(const char *text, size_t orders_length) {
    return take_orders_checked((const uint8_t *)text, strlen(text), rooms.orders + AHEAD,
                               orders_length);
}

uint32_t line_of(const char *text) {
    return refused_line_checked((const uint8_t *)text, strlen(text));
}

const char *numbered(unsigned lines, const char *behind) {
    static char text[ORDERS_TEXT_MAX + 100];
    size_t end = 0;
    for (unsigned i = 0; i < lines; i++)
        end += (size_t)sprintf(text + end, "%u\t0\t9\t%u\n", i, 1000 + i);
    strcpy(text + end, behind);
    return text;
}
