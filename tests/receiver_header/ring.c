/* Arrivals and drains, on bytes handed in and round the ring, and at several addresses. */
#include "trial.h"

#include <string.h>

/* A receiver with this status and turn; the acknowledge byte and the rest are mixed. */
static void hand_in(unsigned status, unsigned turn, uint8_t overrun) {
    fill(MIXED);
    memory.receiver[RECEIVER_STATUS] = (uint8_t)status;
    memory.receiver[RECEIVER_OVERRUN] = overrun;
    memory.receiver[RECEIVER_TURN] = (uint8_t)turn;
}

/* All turns from 0 to 255 with every status. A loss leaves the turn as it is, above 7 too. */
static void try_turn(unsigned turn) {
    static const uint8_t overruns[] = {0, 1, 7, 0xFF};
    uint8_t frame[RECEIVER_FRAME_LENGTH];
    put_frame(frame, turn);
    for (unsigned status = 0; status < 256; status++) {
        uint8_t overrun = overruns[(status + turn / 8) % 4];
        bool is_lost = status >> turn % 8 & 1;
        about("turn", turn);
        hand_in(status, turn, overrun);
        arrive(frame);
        CHECK(memory.receiver[RECEIVER_OVERRUN], is_lost ? 1 : overrun);
        CHECK(memory.receiver[RECEIVER_TURN], is_lost ? turn : (turn + 1) % 8);
        hand_in(status, turn, overrun);
        drain();
        CHECK(memory.receiver[RECEIVER_TURN], turn);
    }
}

/* Every value of every byte of a frame goes through: nothing in it is judged. */
static void try_frames(void) {
    uint8_t frame[RECEIVER_FRAME_LENGTH];
    fill(ZEROS);
    for (unsigned place = 0; place < RECEIVER_FRAME_LENGTH; place++)
        for (unsigned value = 0; value < 256; value++) {
            about("frame byte", place);
            put_frame(frame, place);
            frame[place] = (uint8_t)value;
            arrive(frame);
            memset(memory.lent, 0, sizeof memory.lent);
            drain();
            CHECK(memcmp(memory.lent, frame, sizeof frame), 0);
        }
}

/* From power-up: the first `filled` mailboxes are filled, some of them are emptied, and frames go
 * on arriving: lost while the turn's mailbox is full, however many others are empty. */
static void try_emptied(unsigned filled, unsigned emptied) {
    uint8_t frame[RECEIVER_FRAME_LENGTH];
    about("emptied", emptied);
    fill(ONES);
    power_up();
    for (unsigned i = 0; i < filled; i++) {
        put_frame(frame, i);
        arrive(frame);
    }
    write_register(RECEIVER_ACKNOWLEDGE, (uint8_t)emptied);
    for (unsigned i = 0; i < RECEIVER_MAILBOXES + 1; i++) {
        put_frame(frame, 100 + i);
        arrive(frame);
    }
    for (unsigned i = 0; i < RECEIVER_MAILBOXES + 1; i++)
        drain();
    CHECK(memory.receiver[RECEIVER_STATUS], 0);
}

/* The same few calls with both buffers at each of sixteen addresses in a row. */
static void try_addresses(void) {
    uint8_t room[RECEIVER_LENGTH + 16], lent[RECEIVER_FRAME_LENGTH + 16], up = 0;
    for (unsigned i = 0; i < 16; i++) {
        uint8_t frame[RECEIVER_FRAME_LENGTH], *receiver = room + i, *drained = lent + 15 - i;
        about("address", i);
        put_frame(frame, i);
        CHECK(receiver_power_up_checked(receiver, RECEIVER_LENGTH), RECEIVER_DONE);
        CHECK(receiver_arrive_checked(receiver, RECEIVER_LENGTH, frame, sizeof frame),
              RECEIVER_DONE);
        CHECK(receiver_write_checked(receiver, RECEIVER_LENGTH, RECEIVER_MASK, 1), RECEIVER_DONE);
        CHECK(receiver_line_checked(receiver, RECEIVER_LENGTH, &up, 1), RECEIVER_DONE);
        CHECK(up, 1);
        CHECK(receiver_drain_checked(receiver, RECEIVER_LENGTH, drained, RECEIVER_FRAME_LENGTH),
              RECEIVER_DONE);
        CHECK(memcmp(drained, frame, sizeof frame), 0);
    }
}

void try_ring(void) {
    for (unsigned turn = 0; turn < 256; turn++)
        try_turn(turn);
    try_frames();
    for (unsigned filled = 0; filled <= RECEIVER_MAILBOXES; filled++)
        for (unsigned emptied = 0; emptied < 256; emptied++)
            try_emptied(filled, emptied);
    try_addresses();
}
