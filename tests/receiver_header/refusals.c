/* Every refusal, alone and before each later one, at the edges of what is taken and for NULLs; a
 * refused call changes no byte. */
#include "trial.h"

#include <string.h>

enum { POWER_UP, READ, WRITE, ARRIVE, DRAIN, LINE, CALLS };

/* Room for any length tried, and for bytes on both sides that no call may touch. */
enum { AHEAD = 32, ROOM = 512 };

static struct rooms {
    uint8_t receiver[ROOM], lent[ROOM];
} rooms, kept;

#define RECEIVER (rooms.receiver + AHEAD)
#define LENT     (rooms.lent + AHEAD)

/* What a call is handed; a part that it does not take is passed over. */
struct arguments {
    uint8_t *receiver;
    size_t receiver_length;
    uint32_t number;
    uint8_t *lent;
    size_t lent_length;
};

static uint32_t answer_of(unsigned call, const struct arguments *with) {
    uint8_t *receiver = with->receiver, *lent = with->lent;
    switch (call) {
    case POWER_UP:
        return receiver_power_up_checked(receiver, with->receiver_length);
    case READ:
        return receiver_read_checked(receiver, with->receiver_length, with->number, lent,
                                     with->lent_length);
    case WRITE:
        return receiver_write_checked(receiver, with->receiver_length, with->number, 0xFF);
    case ARRIVE:
        return receiver_arrive_checked(receiver, with->receiver_length, lent, with->lent_length);
    case DRAIN:
        return receiver_drain_checked(receiver, with->receiver_length, lent, with->lent_length);
    default:
        return receiver_line_checked(receiver, with->receiver_length, lent, with->lent_length);
    }
}

/* "30, when a register number is above 91, asked before anything else"; then what is kept, 6; then
 * what is handed in, 7, or only written, 8. A NULL has no bytes, whatever its length says. */
static uint32_t expected_of(unsigned call, const struct arguments *with) {
    size_t receiver_length = with->receiver ? with->receiver_length : 0;
    size_t lent_length = with->lent ? with->lent_length : 0;
    if ((call == READ || call == WRITE) && with->number > 91)
        return RECEIVER_REFUSED_REGISTER;
    if (receiver_length != RECEIVER_LENGTH)
        return RECEIVER_REFUSED_RECEIVER;
    if (call == ARRIVE && lent_length != RECEIVER_FRAME_LENGTH)
        return RECEIVER_REFUSED_FRAME;
    if (call == DRAIN && lent_length != RECEIVER_FRAME_LENGTH)
        return RECEIVER_REFUSED_ROOM;
    if ((call == READ || call == LINE) && lent_length != 1)
        return RECEIVER_REFUSED_ROOM;
    return RECEIVER_DONE;
}

/* The bytes are such that every call changes some where it is carried out, with the mask for the
 * register; that is seen too. */
static void try_all(const struct arguments *with) {
    for (unsigned call = 0; call < CALLS; call++) {
        uint32_t expected_answer = expected_of(call, with);
        memset(rooms.receiver, 0x55, sizeof rooms.receiver);
        memset(rooms.lent, 0xAA, sizeof rooms.lent);
        kept = rooms;
        about("call", call);
        CHECK(answer_of(call, with), expected_answer);
        if (expected_answer != RECEIVER_DONE || with->number == RECEIVER_MASK)
            CHECK(memcmp(&rooms, &kept, sizeof rooms) == 0, expected_answer != RECEIVER_DONE);
    }
}

static const size_t lengths[] = {0, 1, 2, 10, 11, 12, 92, 93, 94, 256 + 1, 256 + 11, 256 + 93};
enum { LENGTHS = sizeof lengths / sizeof *lengths };

/* All pairs of lengths, with one register number. */
static void try_lengths(uint32_t number) {
    for (unsigned i = 0; i < LENGTHS; i++)
        for (unsigned j = 0; j < LENGTHS; j++) {
            struct arguments with = {RECEIVER, lengths[i], number, LENT, lengths[j]};
            try_all(&with);
        }
}

/* Each pointer NULL, alone and with the other, its length right, wrong and 0. */
static void try_nulls(uint32_t number) {
    for (unsigned nulls = 1; nulls < 4; nulls++)
        for (unsigned i = 0; i < LENGTHS; i++) {
            bool no_receiver = nulls & 1, no_lent = nulls & 2;
            struct arguments with = {RECEIVER, RECEIVER_LENGTH, number, LENT, 1};
            if (no_receiver) {
                with.receiver = NULL;
                with.receiver_length = lengths[i];
            }
            if (no_lent) {
                with.lent = NULL;
                with.lent_length = lengths[i];
            }
            try_all(&with);
        }
}

/* The last register and numbers past it, some of which are registers in their lowest byte or two:
 * all 32 bits count. */
static void try_numbers(void) {
    static const uint32_t far[] = {91,  92,         93,         127,        128,
                                   255, 0x01000000, 0x80000000, 0x8000005B, 0xFFFFFFFF};
    struct arguments with = {RECEIVER, RECEIVER_LENGTH, 0, LENT, 1};
    for (unsigned i = 0; i < sizeof far / sizeof *far; i++) {
        try_lengths(far[i]);
        try_nulls(far[i]);
    }
    for (uint32_t k = 0; k < 256; k++) {
        const uint32_t numbers[] = {k, 256 + k, 65536 + k, 0x80000000 + k, 0xFFFFFF00 + k};
        for (unsigned i = 0; i < 5; i++) {
            with.number = numbers[i];
            try_all(&with);
        }
    }
}

void try_refusals(void) {
    try_lengths(RECEIVER_MASK);
    try_nulls(RECEIVER_MASK);
    try_numbers();
    about("registers", RECEIVER_REGISTERS);
    CHECK(RECEIVER_REGISTERS, 91 + 1);
}
