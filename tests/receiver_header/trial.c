/* Each call held to what the request's words do to the same bytes. */
#include "trial.h"

#include <string.h>

enum { UNTOUCHED = 0xEE };

struct memory memory, expected;

void fill(unsigned filling) {
    memset(&memory, UNTOUCHED, sizeof memory);
    for (unsigned i = 0; i < RECEIVER_LENGTH; i++)
        memory.receiver[i] = (uint8_t)(filling == ZEROS ? 0 : filling == ONES ? 0xFF : 37 * i + 11);
}

void put_frame(uint8_t *frame, unsigned number) {
    for (unsigned i = 0; i < RECEIVER_FRAME_LENGTH; i++)
        frame[i] = (uint8_t)(number + 23 * i);
}

/* The first byte that differs is told by its place in the receiver; those before it are negative,
 * and behind it come the bytes around and what is lent. */
static void check_memory(const char *call, uint32_t answer) {
    CHECK_NAMED(call, answer, RECEIVER_DONE);
    check_bytes(call, &memory, &expected, sizeof memory, offsetof(struct memory, receiver));
}

/* "registers as bytes: status (bit n for mailbox n, from 0)" */
static bool is_full(unsigned mailbox) { return expected.receiver[RECEIVER_STATUS] >> mailbox & 1; }

static void set_full(unsigned mailbox) {
    expected.receiver[RECEIVER_STATUS] |= (uint8_t)(1U << mailbox);
}

static void set_empty(unsigned mailbox) {
    if (is_full(mailbox))
        expected.receiver[RECEIVER_STATUS] -= (uint8_t)(1U << mailbox);
}

/* "the turn, a byte read modulo 8" */
static unsigned turn(void) { return expected.receiver[RECEIVER_TURN] % 8; }

/* "At power-up every register is 0 and the first mailbox is next." */
void power_up(void) {
    expected = memory;
    memset(expected.receiver, 0, RECEIVER_REGISTERS);
    expected.receiver[RECEIVER_TURN] = 0;
    check_memory("receiver_power_up", receiver_power_up_checked(memory.receiver, RECEIVER_LENGTH));
}

/* "Acknowledge reads 0" */
void read_register(uint32_t number) {
    expected = memory;
    expected.lent[0] = number == RECEIVER_ACKNOWLEDGE ? 0 : expected.receiver[number];
    check_memory("receiver_read",
                 receiver_read_checked(memory.receiver, RECEIVER_LENGTH, number, memory.lent, 1));
}

/* "Writing a 1 bit to acknowledge empties that mailbox. Writing the mask sets it, any write to
 * overrun makes it 0, and other writes change nothing." */
void write_register(uint32_t number, uint8_t value) {
    expected = memory;
    if (number == RECEIVER_ACKNOWLEDGE) {
        for (unsigned mailbox = 0; mailbox < RECEIVER_MAILBOXES; mailbox++)
            if (value >> mailbox & 1)
                set_empty(mailbox);
    } else if (number == RECEIVER_MASK) {
        expected.receiver[RECEIVER_MASK] = value;
    } else if (number == RECEIVER_OVERRUN) {
        expected.receiver[RECEIVER_OVERRUN] = 0;
    }
    check_memory("receiver_write",
                 receiver_write_checked(memory.receiver, RECEIVER_LENGTH, number, value));
}

/* "An arriving frame fills the next mailbox. If that one is full, the frame is lost, overrun
 * becomes 1 and the turn does not move." */
void arrive(const uint8_t *frame) {
    unsigned mailbox;
    memcpy(memory.lent, frame, RECEIVER_FRAME_LENGTH);
    expected = memory;
    mailbox = turn();
    if (is_full(mailbox)) {
        expected.receiver[RECEIVER_OVERRUN] = 1;
    } else {
        memcpy(expected.receiver + RECEIVER_MAILBOX(mailbox), frame, RECEIVER_FRAME_LENGTH);
        set_full(mailbox);
        expected.receiver[RECEIVER_TURN] = (uint8_t)((mailbox + 1) % RECEIVER_MAILBOXES);
    }
    check_memory("receiver_arrive", receiver_arrive_checked(memory.receiver, RECEIVER_LENGTH,
                                                            memory.lent, RECEIVER_FRAME_LENGTH));
}

/* "A drain hands the tick the frame held longest and empties its mailbox; with none held it does
 * nothing." Mailboxes are used in turn, so the longest is met first from the turn's upward. */
void drain(void) {
    expected = memory;
    for (unsigned i = 0; i < RECEIVER_MAILBOXES; i++) {
        unsigned mailbox = (turn() + i) % RECEIVER_MAILBOXES;
        if (is_full(mailbox)) {
            memcpy(expected.lent, expected.receiver + RECEIVER_MAILBOX(mailbox),
                   RECEIVER_FRAME_LENGTH);
            set_empty(mailbox);
            break;
        }
    }
    check_memory("receiver_drain", receiver_drain_checked(memory.receiver, RECEIVER_LENGTH,
                                                          memory.lent, RECEIVER_FRAME_LENGTH));
}

/* "The line is up exactly when status and mask share a bit." */
void ask_line(void) {
    expected = memory;
    expected.lent[0] = 0;
    for (unsigned bit = 0; bit < 8; bit++)
        if (expected.receiver[RECEIVER_STATUS] >> bit & expected.receiver[RECEIVER_MASK] >> bit & 1)
            expected.lent[0] = 1;
    check_memory("receiver_line",
                 receiver_line_checked(memory.receiver, RECEIVER_LENGTH, memory.lent, 1));
}
