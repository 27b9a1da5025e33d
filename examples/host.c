/*
 * A small host: a post with two leads, ticked through a written session. It prints what happens
 * at the leads, in brackets, and what the support desk sees: phase, amperes, what the car is
 * offered while it charges, threshold, reason, which switches are on, and the kilowatt-hours of a
 * lead when it ends.
 *
 * The session shows why one lead may give 62 A and the lead beside it 125 A: both cars ask for
 * 125 A and the post has 50,000 W, so that each lead gets 25,000 W. At 400 V that carries 62
 * whole amperes, at 200 V it carries 125. It also shows what a host does when a tick is refused,
 * and when a car's frames come faster than they are fetched, and how a lead waits where its meter's
 * error leaves open whether a limit is kept.
 *
 * Each lead has a receive chip, here that of receiver.h: what a car sends arrives there, and before
 * each tick the host fetches it into the tick's input. It asks every time and needs no interrupt,
 * so the mask stays 0.
 *
 * With the argument `gbt` lead 2 has the system B coupler of plug_sensing.h: its plug contact is
 * sensed, from the voltage of detection point 1. The session is the same, but that voltage is once
 * not measured, and the connector's switch S is opened twice: for one tick, which changes nothing,
 * and then for longer, just before the stop button is pressed.
 */
#include "plug_sensing.h"
#include "post.h"
#include "receiver.h"

#include <stdbool.h>
#include <stdio.h>
#include <string.h>

enum { LEADS = 2, LAST_TICK = 216, RATED_VOLTS = 500, RATED_AMPERES = 125, POWER_LIMIT = 50000 };

/* How far off this post's meters may be, in tenths: 1.0 V and 0.5 A. */
enum { VOLTS_ERROR = 10, AMPERES_ERROR = 5 };

/* What each car says in every tick in which it talks; its status stands in the session. */
static const struct car {
    uint16_t maximum_voltage, target_voltage;
    uint8_t request, time_tens, time_minutes;
} cars[LEADS] = {
    {400, 380, 125, POST_H101_USE_MINUTES, 30},
    {200, 190, 125, 90, 0},
};

#define PLUGGED   POST_CONTACT_PLUG
#define STARTED   (PLUGGED | POST_CONTACT_START_BUTTON)
#define PERMITTED (PLUGGED | POST_CONTACT_PERMISSION)
#define LOCKED    (PERMITTED | POST_CONTACT_LOCK)
#define STOPPED   (LOCKED | POST_CONTACT_STOP_BUTTON)
#define REVOKED   (PLUGGED | POST_CONTACT_LOCK) /* permission gone, still locked */
#define SILENT    (-1)                          /* the car sends no frames */
#define OPEN      POST_STATUS_CONTACTOR_OPEN
#define READY     (POST_STATUS_ENABLED | OPEN)
#define CLOSED    POST_STATUS_ENABLED

/* From its tick on a step is the lead's input, until the lead's next step. Ohms 0: not measured. */
static const struct step {
    unsigned from, lead;
    const char *what;
    uint8_t contacts;
    float volts, ohms;
    int status;
} session[] = {
    {1, 0, "plugged in, start pressed", STARTED, 0, 0, SILENT},
    {2, 0, "car talks, battery at most 400 V", PLUGGED, 0, 0, OPEN},
    {4, 0, "car enabled, permission closed", PERMITTED, 0, 0, READY},
    {6, 0, "connector locked", LOCKED, 0, 0, READY},
    {8, 0, "insulation measured, 1,000,000 ohms", LOCKED, 400, 1e6F, READY},
    {10, 0, "test voltage gone", LOCKED, 8, 0, READY},
    {13, 0, "car closes its contactor", LOCKED, 380, 0, CLOSED},
    {67, 1, "plugged in, start pressed", STARTED, 0, 0, SILENT},
    {68, 1, "car talks, battery at most 200 V", PLUGGED, 0, 0, OPEN},
    {70, 1, "car enabled, permission closed", PERMITTED, 0, 0, READY},
    {72, 1, "connector locked", LOCKED, 0, 0, READY},
    {75, 1, "insulation measured, 1,000,000 ohms", LOCKED, 200, 1e6F, READY},
    {77, 1, "test voltage gone", LOCKED, 4, 0, READY},
    {80, 1, "car closes its contactor", LOCKED, 190, 0, CLOSED},
    {160, 1, "stop button pressed", STOPPED, 190, 0, CLOSED},
    {162, 1, "stop button let go", LOCKED, 190, 0, CLOSED},
    {176, 1, "car opens its contactor and permission", REVOKED, 60, 0, OPEN},
    {177, 1, "9.5 V at the cable, which may be 10.5", REVOKED, 9.5F, 0, SILENT},
    {178, 1, "cable without voltage", REVOKED, 9, 0, SILENT},
    {179, 1, "connector unlocked", PLUGGED, 0, 0, SILENT},
    {182, 1, "unplugged", 0, 0, 0, SILENT},
    {206, 0, "car reports its contactor open", LOCKED, 60, 0, READY},
    {208, 0, "car opens its permission", REVOKED, 60, 0, OPEN},
    {210, 0, "cable without voltage", REVOKED, 9, 0, SILENT},
    {211, 0, "connector unlocked", PLUGGED, 0, 0, SILENT},
    {214, 0, "unplugged", 0, 0, 0, SILENT},
};
enum { STEPS = sizeof session / sizeof *session };

enum { GBT_LEAD = 1, NOT_MEASURED = PLUG_LARGEST_MILLIVOLTS + 1 };

/* What the board measures at detection point 1 of the lead with the system B coupler: from its tick
 * on a value holds. */
static const struct detected {
    unsigned from;
    const char *what;
    uint32_t millivolts;
} detection_point[] = {
    {1, "connector out", 6000},
    {40, "detection point 1 not measured", NOT_MEASURED},
    {41, "connector out", 6000},
    {67, "connector in, switch S closed", 4000},
    {150, "switch S open, for one tick", 6000},
    {151, "switch S closed", 4000},
    {158, "switch S open", 6000},
    {164, "switch S closed", 4000},
    {182, "switch S open, connector out", 12000},
    {184, "switch S let go", 6000},
};
enum { DETECTED = sizeof detection_point / sizeof *detection_point };

/* Ticks in which the host makes a mistake: it sets a spare bit of the input. */
static bool is_spoilt(unsigned now) { return now == 146 || (now >= 200 && now <= 205); }

/* A tick before which a car sends its three frames three times: one more than the chip holds. */
static bool is_repeated(unsigned now, unsigned lead) { return now == 100 && lead == 0; }

static const char *const phases[] = {
    [POST_PHASE_IDLE] = "idle", [POST_PHASE_HANDSHAKE] = "handshake",
    [POST_PHASE_LOCKING] = "locking", [POST_PHASE_INSULATION_TEST] = "insulation test",
    [POST_PHASE_TEST_DISCHARGE] = "discharge of the test voltage",
    [POST_PHASE_CONTACTOR_CLOSING] = "contactor closing", [POST_PHASE_CHARGING] = "charging",
    [POST_PHASE_RAMP_DOWN] = "ramp-down", [POST_PHASE_WELD_CHECK] = "weld check",
    [POST_PHASE_FINAL_DISCHARGE] = "discharge before unlocking", [POST_PHASE_ENDED] = "ended",
};

static const char *const reasons[] = {
    [POST_REASON_EMERGENCY_BUTTON] = "emergency button", [POST_REASON_UNPLUGGED] = "unplugged",
    [POST_REASON_GROUND_FAULT] = "ground fault", [POST_REASON_PERMISSION_OPEN] = "permission open",
    [POST_REASON_BAD_READING] = "bad reading", [POST_REASON_OVERVOLTAGE] = "overvoltage",
    [POST_REASON_OVERCURRENT] = "overcurrent", [POST_REASON_UNLOCKED] = "unlocked",
    [POST_REASON_CAR_SILENT] = "car silent", [POST_REASON_CAR_FAULT] = "car fault",
    [POST_REASON_INCOMPATIBLE_VOLTAGE] = "incompatible voltage",
    [POST_REASON_NOT_IN_PARK] = "not in park", [POST_REASON_NOT_ENABLED] = "not enabled",
    [POST_REASON_STOP_REQUEST] = "stop request", [POST_REASON_CONTACTOR_OPEN] = "contactor open",
    [POST_REASON_STOP_BUTTON] = "stop button", [POST_REASON_LOW_INSULATION] = "low insulation",
    [POST_REASON_PHASE_TIMEOUT] = "phase timeout",
    [POST_REASON_CHARGING_TIME_OVER] = "charging time over",
};

static const char *const answers[] = {
    [POST_DONE] = "done", [POST_REFUSED_LEADS] = "number of leads",
    [POST_REFUSED_RATED_VOLTS] = "rated volts", [POST_REFUSED_RATED_AMPERES] = "rated amperes",
    [POST_REFUSED_CABLE_RESISTANCE] = "cable resistance",
    [POST_REFUSED_METER_ERROR] = "error of a meter",
    [POST_REFUSED_STATE_LENGTH] = "length of the new state",
    [POST_REFUSED_STATE] = "state not good", [POST_REFUSED_INPUT_LENGTH] = "length of the input",
    [POST_REFUSED_OUTPUT_LENGTH] = "length of the output", [POST_REFUSED_INPUT] = "input not good",
};

static const char *const receiver_answers[] = {
    [RECEIVER_DONE] = "done", [RECEIVER_REFUSED_RECEIVER] = "length of the receiver",
    [RECEIVER_REFUSED_FRAME] = "length of the frame", [RECEIVER_REFUSED_ROOM] = "room lent",
    [RECEIVER_REFUSED_REGISTER] = "number of the register",
};

static const char *const plug_answers[] = {
    [PLUG_DONE] = "done", [PLUG_REFUSED_STATE] = "state not good",
    [PLUG_REFUSED_ROOM] = "room lent", [PLUG_REFUSED_MILLIVOLTS] = "value of detection point 1",
};

/* The name of a number, which may be any: none is looked for past the end of the table. */
#define NAME_OF(names, number) name_of(names, sizeof(names) / sizeof *(names), number)

static const char *name_of(const char *const *names, size_t count, uint32_t number) {
    return number < count && names[number] != NULL ? names[number] : "not known to this host";
}

/* What the host drives at a lead, and its bus: the frames sent are counted and the newest kept,
 * those of the car arrive in the receive chip. */
struct board {
    uint8_t amperes, switches;
    uint16_t test_volts;
    bool is_opened; /* its relays, by the host itself: no charge until the lead is idle */
    unsigned sent;
    uint8_t frames[2 * POST_FRAME_DATA_LENGTH];
    uint8_t receiver[RECEIVER_LENGTH];
    bool is_gbt; /* the lead has the system B coupler */
    uint8_t plug_state[PLUG_STATE_LENGTH], plug;
};

/* Whether a receiver has done a call; where not, the desk is told. A refusal is a mistake of this
 * host and has changed nothing: the tick goes on without what the call was to bring. */
static bool done_or_told(uint32_t number) {
    if (number != RECEIVER_DONE)
        printf("receiver refused with %lu: %s\n", (unsigned long)number,
               NAME_OF(receiver_answers, number));
    return number == RECEIVER_DONE;
}

/* The same of the sensing of a lead's plug; a value that is refused is no mistake of this host. */
static bool plug_done_or_told(unsigned now, unsigned lead, uint32_t number) {
    if (number != PLUG_DONE)
        printf("tick %3u  lead %u: plug refused with %lu: %s, taken as open\n", now, lead + 1,
               (unsigned long)number, NAME_OF(plug_answers, number));
    return number == PLUG_DONE;
}

/* A refused call leaves 0: then no frame is fetched, and none is told to be lost. */
static uint8_t read_register(const struct board *board, uint32_t number) {
    uint8_t value = 0;
    done_or_told(
        receiver_read_checked(board->receiver, sizeof board->receiver, number, &value, 1));
    return value;
}

/* The chip takes a frame record of the post as it is. Were their lengths to differ, it would refuse
 * the frame here and the room for it in take_frames. */
static void send_frame(struct board *board, uint16_t identifier, const uint8_t *data) {
    uint8_t frame[POST_FRAME_RECORD_LENGTH];

    post_put_u16(frame + POST_FRAME_IDENTIFIER, identifier);
    frame[POST_FRAME_LENGTH] = POST_FRAME_DATA_LENGTH;
    memcpy(frame + POST_FRAME_DATA, data, POST_FRAME_DATA_LENGTH);
    done_or_told(
        receiver_arrive_checked(board->receiver, sizeof board->receiver, frame, sizeof frame));
}

static void send_car(struct board *board, const struct car *car, uint8_t status) {
    uint8_t h100[POST_FRAME_DATA_LENGTH] = {0}, h101[POST_FRAME_DATA_LENGTH] = {0};
    uint8_t h102[POST_FRAME_DATA_LENGTH] = {0};

    post_put_u16(h100 + POST_H100_MAXIMUM_VOLTAGE, car->maximum_voltage);
    h101[POST_H101_TIME_TENS] = car->time_tens;
    h101[POST_H101_TIME_MINUTES] = car->time_minutes;
    post_put_u16(h102 + POST_H102_TARGET_VOLTAGE, car->target_voltage);
    h102[POST_H102_REQUEST] = car->request;
    h102[POST_H102_STATUS] = status;

    send_frame(board, POST_H100, h100);
    send_frame(board, POST_H101, h101);
    send_frame(board, POST_H102, h102);
}

/* The step of a lead that holds in a tick, NULL before its first. */
static const struct step *step_of(unsigned lead, unsigned now) {
    const struct step *last = NULL;

    for (const struct step *step = session; step < session + STEPS; step++)
        if (step->lead == lead && step->from <= now)
            last = step;
    return last;
}

/* What the cars send before a tick. On a board this happens by itself. */
static void send_cars(unsigned now, struct board *boards) {
    for (unsigned lead = 0; lead < LEADS; lead++) {
        const struct step *step = step_of(lead, now);
        unsigned times = is_repeated(now, lead) ? 3 : 1;

        for (unsigned i = 0; step != NULL && step->status != SILENT && i < times; i++)
            send_car(&boards[lead], &cars[lead], (uint8_t)step->status);
    }
}

static void put_lead(uint8_t *record, const struct step *step, const struct board *board) {
    record[POST_INPUT_CONTACTS] = step->contacts;
    record[POST_INPUT_PRESENT] = POST_PRESENT_VOLTS | POST_PRESENT_AMPERES;
    post_put_float(record + POST_INPUT_VOLTS, step->volts);
    post_put_float(record + POST_INPUT_AMPERES, board->amperes);
    if (step->ohms > 0) {
        record[POST_INPUT_PRESENT] |= POST_PRESENT_INSULATION;
        post_put_float(record + POST_INPUT_INSULATION, step->ohms);
    }
}

static uint32_t millivolts_at(unsigned now) {
    uint32_t last = NOT_MEASURED;

    for (size_t i = 0; i < DETECTED; i++)
        if (detection_point[i].from <= now)
            last = detection_point[i].millivolts;
    return last;
}

/* The plug contact as it is sensed, in place of the step's, once in each tick. The byte is set to
 * PLUG_OPEN ahead; a refused call leaves it so, and the lead counts as unplugged. The desk asks for
 * the millivolts when such a lead stops with 12: they are shown when the contact changes. */
static void put_plug(uint8_t *record, unsigned now, unsigned lead, struct board *board) {
    uint32_t millivolts = millivolts_at(now);
    uint8_t before = board->plug;

    board->plug = PLUG_OPEN;
    uint32_t number = plug_sense_checked(board->plug_state, sizeof board->plug_state, millivolts,
                                         &board->plug, PLUG_LENGTH);
    if (plug_done_or_told(now, lead, number) && board->plug != before)
        printf("tick %3u  lead %u: plug %s, %lu mV\n", now, lead + 1,
               board->plug == PLUG_CLOSED ? "closed" : "open", (unsigned long)millivolts);
    record[POST_INPUT_CONTACTS] &= (uint8_t)~POST_CONTACT_PLUG;
    if (board->plug == PLUG_CLOSED)
        record[POST_INPUT_CONTACTS] |= POST_CONTACT_PLUG;
}

/* Fetches the frames that the chip holds, the one held longest first, while there are records.
 * Where the tick is refused they are gone unheard; this host lets them go, as cars repeat them. */
static void take_frames(uint8_t *record, struct board *board) {
    uint8_t *count = record + POST_INPUT_FRAME_COUNT;

    while (*count < POST_FRAME_RECORDS && read_register(board, RECEIVER_STATUS) != 0) {
        if (!done_or_told(receiver_drain_checked(board->receiver, sizeof board->receiver,
                                                 record + POST_INPUT_FRAME(*count),
                                                 POST_FRAME_RECORD_LENGTH)))
            return;
        ++*count;
    }
}

static void put_input(uint8_t *input, unsigned now, struct board *boards) {
    memset(input, 0, POST_INPUT_LENGTH(LEADS));
    post_put_u32(input + POST_INPUT_POWER_LIMIT, POWER_LIMIT);
    for (unsigned lead = 0; lead < LEADS; lead++) {
        const struct step *step = step_of(lead, now);

        if (step != NULL)
            put_lead(input + POST_INPUT_LEAD(lead), step, &boards[lead]);
        if (boards[lead].is_gbt)
            put_plug(input + POST_INPUT_LEAD(lead), now, lead, &boards[lead]);
        take_frames(input + POST_INPUT_LEAD(lead), &boards[lead]);
    }
    if (is_spoilt(now))
        input[POST_INPUT_LEAD(0) + POST_INPUT_CONTACTS] |= 0x80;
}

/* Does what the output says. This board's current follows the command at once, but rises by 2 A a
 * tick, as commands do: after a cut by the host it goes up from where it stands. */
static void drive(struct board *board, const uint8_t *record) {
    uint8_t command = record[POST_OUTPUT_COMMAND];

    board->switches = record[POST_OUTPUT_SWITCHES];
    board->test_volts = post_get_u16(record + POST_OUTPUT_TEST_VOLTS);
    board->amperes = command > board->amperes + 2 ? (uint8_t)(board->amperes + 2) : command;
    if (record[POST_OUTPUT_PHASE] == POST_PHASE_IDLE)
        board->is_opened = false;
    if (board->is_opened) {
        board->switches &= POST_SWITCH_LOCK | POST_SWITCH_FRAMES;
        board->test_volts = board->amperes = 0;
    }
    if (board->switches & POST_SWITCH_FRAMES) {
        board->sent++;
        memcpy(board->frames, record + POST_OUTPUT_H108, POST_FRAME_DATA_LENGTH);
        memcpy(board->frames + POST_FRAME_DATA_LENGTH, record + POST_OUTPUT_H109,
               POST_FRAME_DATA_LENGTH);
    }
}

/* The emergency stop by the host that post.h asks for. This board's current falls by 200 A/s. */
static void cut_off(struct board *board) {
    board->test_volts = 0;
    board->amperes = board->amperes > 20 ? board->amperes - 20 : 0;
    if (board->amperes <= 5 && board->switches & (POST_SWITCH_D1 | POST_SWITCH_D2)) {
        board->switches &= POST_SWITCH_LOCK;
        board->is_opened = true;
    }
}

static void show_steps(unsigned now, const struct board *boards) {
    for (size_t i = 0; i < STEPS; i++)
        if (session[i].from == now)
            printf("tick %3u  [lead %u: %s]\n", now, session[i].lead + 1, session[i].what);
    for (size_t i = 0; i < DETECTED; i++)
        if (detection_point[i].from == now && boards[GBT_LEAD].is_gbt)
            printf("tick %3u  [lead %u: %s]\n", now, GBT_LEAD + 1, detection_point[i].what);
    for (unsigned lead = 0; lead < LEADS; lead++)
        if (is_repeated(now, lead))
            printf("tick %3u  [lead %u: car sends its three frames three times]\n", now, lead + 1);
    if (is_spoilt(now) && !is_spoilt(now - 1))
        printf("tick %3u  [the host has set a spare bit of the input]\n", now);
}

/* Overrun tells that frames were lost, not how many. It is written so that the next loss shows. */
static void show_losses(unsigned now, struct board *boards) {
    for (unsigned lead = 0; lead < LEADS; lead++) {
        struct board *board = &boards[lead];

        if (read_register(board, RECEIVER_OVERRUN) != 0) {
            printf("tick %3u  lead %u: one frame of the car was lost, or more\n", now, lead + 1);
            done_or_told(receiver_write_checked(board->receiver, sizeof board->receiver,
                                                RECEIVER_OVERRUN, 0));
        }
    }
}

static void show_switches(const struct board *board) {
    printf("%s%s%s%s", board->switches & POST_SWITCH_D1 ? ", d1" : "",
           board->switches & POST_SWITCH_D2 ? ", d2" : "",
           board->switches & POST_SWITCH_LOCK ? ", lock" : "",
           board->is_opened ? ", relays opened by the host" : "");
}

/* What the desk has been shown of a lead, and how its amperes moved in the tick before. */
struct desk {
    int phase, reason, threshold, shown_amperes, amperes, change;
};

/* A steady ramp is one change: its amperes are shown where the ramp begins, bends and rests. */
static void show_lead(unsigned now, unsigned lead, const uint8_t *record, const struct board *board,
                      struct desk *desk) {
    int threshold = post_get_u16(record + POST_OUTPUT_H108 + POST_H108_THRESHOLD);
    uint8_t phase = record[POST_OUTPUT_PHASE];
    uint8_t reason = record[POST_OUTPUT_REASON];
    int amperes = board->amperes;
    int change = amperes - desk->amperes;
    bool moved = phase != desk->phase || reason != desk->reason || threshold != desk->threshold;
    bool bent = change != desk->change && amperes != desk->shown_amperes;

    if (moved || bent) {
        printf("tick %3u  lead %u: %s, %d A", now, lead + 1, NAME_OF(phases, phase), amperes);
        if (phase == POST_PHASE_CHARGING)
            printf(" of %d A offered", record[POST_OUTPUT_H108 + POST_H108_OFFERED_AMPERES]);
        if (threshold != 0)
            printf(", threshold %d V", threshold);
        if (reason != POST_REASON_NONE)
            printf(", reason %d: %s", reason, NAME_OF(reasons, reason));
        show_switches(board);
        printf("\n");
        desk->shown_amperes = amperes;
    }
    *desk = (struct desk){phase, reason, threshold, desk->shown_amperes, amperes, change};
}

/* What a lead that ends was commanded, down to whole watt-hours. Its age is 0 in the tick of the
 * move alone, so that it is shown once. What this board gave is another figure, as commands know
 * nothing of a cut by the host. */
static void show_energy(unsigned now, unsigned lead, const uint8_t *record) {
    unsigned long long watt_hours =
        post_get_u64(record + POST_LEAD_ENERGY) / (POST_WATT_TICKS_PER_KWH / 1000);

    if (record[POST_LEAD_PHASE] == POST_PHASE_ENDED && post_get_u32(record + POST_LEAD_AGE) == 0)
        printf("tick %3u  lead %u: commanded %llu.%03llu kWh since its start\n", now, lead + 1,
               watt_hours / 1000, watt_hours % 1000);
}

static void show_refusal(unsigned now, uint32_t number, const struct board *boards) {
    printf("tick %3u  refused with %lu: %s", now, (unsigned long)number, NAME_OF(answers, number));
    for (unsigned lead = 0; lead < LEADS; lead++)
        if (boards[lead].switches != 0) {
            printf("; lead %u cut off, %d A", lead + 1, boards[lead].amperes);
            show_switches(&boards[lead]);
        }
    printf("\n");
}

static void show_frames(unsigned lead, const struct board *board) {
    printf("lead %u was sent H'108 and H'109 %u times, the last", lead + 1, board->sent);
    for (size_t i = 0; i < sizeof board->frames; i++)
        printf("%s%02X", i % POST_FRAME_DATA_LENGTH == 0 ? " " : "", board->frames[i]);
    printf("\n");
}

int main(int argc, char **argv) {
    bool with_gbt = argc == 2 && strcmp(argv[1], "gbt") == 0;
    uint8_t state[POST_STATE_LENGTH(LEADS)];
    uint8_t input[POST_INPUT_LENGTH(LEADS)];
    uint8_t output[POST_OUTPUT_LENGTH(LEADS)] = {0};
    struct board boards[LEADS] = {{0}};
    struct desk desk[LEADS] = {{0}};

    if (argc > 1 && !with_gbt) {
        fprintf(stderr, "usage: host [gbt]\n");
        return 2;
    }
    uint32_t number = post_setup(LEADS, RATED_VOLTS, RATED_AMPERES, post_float_bits(0.0F),
                                 VOLTS_ERROR, AMPERES_ERROR, state, sizeof state);
    if (number != POST_DONE) {
        printf("setup refused with %lu: %s\n", (unsigned long)number, NAME_OF(answers, number));
        return 1;
    }
    for (unsigned lead = 0; lead < LEADS; lead++)
        if (!done_or_told(receiver_power_up_checked(boards[lead].receiver, RECEIVER_LENGTH)))
            return 1;
    boards[GBT_LEAD].is_gbt = with_gbt;
    boards[GBT_LEAD].plug_state[0] = PLUG_FRESH_STATE;
    /* Here no time passes. A post waits for its tenth of a second in each turn, and a timer beside
     * this loop cuts off when a tick is late. */
    for (unsigned now = 1; now <= LAST_TICK; now++) {
        show_steps(now, boards);
        send_cars(now, boards);
        put_input(input, now, boards);
        show_losses(now, boards);
        number = post_tick(state, sizeof state, input, sizeof input, output, sizeof output);
        for (unsigned lead = 0; lead < LEADS; lead++)
            if (number == POST_DONE) {
                drive(&boards[lead], output + POST_OUTPUT_LEAD(lead));
                show_lead(now, lead, output + POST_OUTPUT_LEAD(lead), &boards[lead], &desk[lead]);
                show_energy(now, lead, state + POST_STATE_LEAD(lead));
            } else {
                cut_off(&boards[lead]);
                desk[lead].phase = -1; /* so that the next tick done is shown */
            }
        if (number != POST_DONE)
            show_refusal(now, number, boards);
    }
    for (unsigned lead = 0; lead < LEADS; lead++)
        show_frames(lead, &boards[lead]);
    printf("tick %3u  [a NULL for the input]\n", LAST_TICK + 1);
    number = post_tick(state, sizeof state, NULL, sizeof input, output, sizeof output);
    show_refusal(LAST_TICK + 1, number, boards);
    printf("tick %3u  [a NULL for a receiver]\n", LAST_TICK + 1);
    bool is_taken = done_or_told(receiver_power_up_checked(NULL, RECEIVER_LENGTH));
    if (with_gbt) {
        printf("tick %3u  [a NULL for the state of a plug]\n", LAST_TICK + 1);
        uint8_t plug = PLUG_OPEN;
        uint32_t sensed =
            plug_sense_checked(NULL, PLUG_STATE_LENGTH, PLUG_U1C_MIN, &plug, PLUG_LENGTH);
        is_taken |= plug_done_or_told(LAST_TICK + 1, GBT_LEAD, sensed);
    }
    return number == POST_REFUSED_INPUT_LENGTH && !is_taken ? 0 : 1;
}
