/* Every register read and written with every value, and what the registers say together. */
#include "trial.h"

static void try_power_up(void) {
    for (unsigned filling = 0; filling < FILLINGS; filling++) {
        about("power-up over filling", filling);
        fill(filling);
        power_up();
        for (uint32_t number = 0; number < RECEIVER_REGISTERS; number++)
            read_register(number);
        CHECK(memory.receiver[RECEIVER_TURN], 0);
    }
}

/* The names follow each other up to the turn: status, overrun, mask, acknowledge, mailboxes. */
static void try_places(void) {
    about("places", 0);
    CHECK(RECEIVER_STATUS, 0);
    CHECK(RECEIVER_OVERRUN, RECEIVER_STATUS + 1);
    CHECK(RECEIVER_MASK, RECEIVER_OVERRUN + 1);
    CHECK(RECEIVER_ACKNOWLEDGE, RECEIVER_MASK + 1);
    CHECK(RECEIVER_MAILBOX(0), RECEIVER_ACKNOWLEDGE + 1);
    for (unsigned k = 0; k < RECEIVER_MAILBOXES; k++)
        CHECK(RECEIVER_MAILBOX(k + 1), RECEIVER_MAILBOX(k) + RECEIVER_FRAME_LENGTH);
    CHECK(RECEIVER_MAILBOX(RECEIVER_MAILBOXES), RECEIVER_REGISTERS);
    CHECK(RECEIVER_TURN, RECEIVER_REGISTERS);
    CHECK(RECEIVER_LENGTH, RECEIVER_TURN + 1);
}

/* The register holds the value when it is read, and its filling when the value is written. */
static void try_register(unsigned filling, uint32_t number) {
    for (unsigned value = 0; value < 256; value++) {
        about("register", number);
        fill(filling);
        write_register(number, (uint8_t)value);
        memory.receiver[number] = (uint8_t)value;
        read_register(number);
    }
}

/* One status, with every mask set and then every value acknowledged. Overrun is 1 throughout, which
 * raises no line. */
static void try_status(uint8_t status) {
    about("status", status);
    for (unsigned value = 0; value < 256; value++) {
        fill(MIXED);
        memory.receiver[RECEIVER_STATUS] = status;
        memory.receiver[RECEIVER_OVERRUN] = 1;
        write_register(RECEIVER_MASK, (uint8_t)value);
        ask_line();
        write_register(RECEIVER_ACKNOWLEDGE, (uint8_t)value);
        ask_line();
    }
}

void try_registers(void) {
    try_power_up();
    try_places();
    for (unsigned filling = 0; filling < FILLINGS; filling++)
        for (uint32_t number = 0; number < RECEIVER_REGISTERS; number++)
            try_register(filling, number);
    for (unsigned status = 0; status < 256; status++)
        try_status((uint8_t)status);
}
