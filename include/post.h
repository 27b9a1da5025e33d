/*
 * The control software of a DC quick charger (a post) with one to four CHAdeMO cables (leads),
 * as the C host in the post calls it. Link with libpost.a, an archive for x86-64 Linux.
 *
 * Call post_setup() once, then post_tick() every tenth of a second: it takes what contacts, meter
 * and cars say, and gives what each lead is to do. Everything passes through three byte buffers of
 * the host: state, input and output. examples/host.c is a small host.
 *
 * Comments quote document 01, the product's scope, where its word is another one: "leak trip".
 * Bytes count from 0, bits from 0 as the lowest, leads and frame records here from 0 too. Numbers
 * of several bytes are little-endian, on every machine. H' marks hexadecimal. Tables and clauses
 * (A.19, A.7.2.8) are those of IEEE 2030.1.1.
 *
 * What is left to the caller, as a pointer and a length cannot be checked:
 * - A pointer is valid for its whole length until the call returns, those to state and output for
 *   writing. setup() and tick() take no NULL, not even with length 0: the compiled code may assume
 *   so. post_setup() and post_tick() have it refused; use them.
 * - The buffers of one call do not overlap.
 * - No other thread touches them during the call.
 * - Between the calls the state belongs to the library: keep it and hand it back byte for byte.
 *   Looking at it is harmless, and is how a host reads a lead's energy.
 *
 * Everything else is checked: any numbers, any lengths and any bytes are carried out or refused
 * with the first number below that fits. A refused call changes no byte of state or output.
 *
 * What the calls need:
 * - Alignment: none. A buffer may begin at any address.
 * - Stack: less than 1 kB (seen in the archive: 760 bytes in a tick, 40 in setup, and what memcpy
 *   and memset take). Where the C library is bound at its first call, that call takes more; 16 kB
 *   are enough for a thread.
 * - Threads: the library has no memory of its own, so calls on different buffers may run at once.
 *   A host may keep several posts, each with its own state.
 * - Time: every call ends; a tick of four leads takes less than a microsecond.
 * - The archive is one ELF object for an x86-64 processor of level v2 (SSE4.2, POPCNT) or above,
 *   with position-independent code and System V calls. From elsewhere it needs memcpy and memset.
 */
#ifndef POST_H_INCLUDED
#define POST_H_INCLUDED

#include <stddef.h>
#include <stdint.h>
#include <string.h>

#ifdef __cplusplus
extern "C" {
#endif

/*
 * Begins a post: writes the state of a post with this many leads, all of them idle. state_length
 * is POST_STATE_LENGTH(leads). resistance_bits are the 32 bits of a float, the resistance of the
 * cable in ohms, by which volts at the connector differ from volts at the meter: 0x3D800000, or
 * post_float_bits(0.0625F). The errors say how far off the meters may be, in tenths of a volt and
 * of an ampere, 0 for exact ones; see "Inexact meters" below. Returns POST_DONE or one of setup's
 * refusals.
 */
uint32_t setup(uint32_t leads, uint32_t rated_volts, uint32_t rated_amperes,
               uint32_t resistance_bits, uint32_t volts_error, uint32_t amperes_error,
               uint8_t *state, size_t state_length);

/*
 * Decides one tick, a tenth of a second, for all leads: changes the state and writes the output.
 * The number of leads is the state's; the lengths are POST_STATE_LENGTH, POST_INPUT_LENGTH and
 * POST_OUTPUT_LENGTH of it. Returns POST_DONE or a refusal from POST_REFUSED_STATE on: then the
 * post has not moved, and the output holds a command that must not be driven on, see below.
 */
uint32_t tick(uint8_t *state, size_t state_length, const uint8_t *input, size_t input_length,
              uint8_t *output, size_t output_length);

#ifdef __cplusplus
}
#endif

/*
 * The same two calls for a host: a NULL, with any length, is handed on as an empty buffer, so that
 * the library refuses it with its own number: 5, or one that is asked before it, by post_setup; 6,
 * 7 or 8 by post_tick.
 */
static inline uint32_t post_setup(uint32_t leads, uint32_t rated_volts, uint32_t rated_amperes,
                                  uint32_t resistance_bits, uint32_t volts_error,
                                  uint32_t amperes_error, uint8_t *state, size_t state_length) {
    uint8_t none = 0;
    return setup(leads, rated_volts, rated_amperes, resistance_bits, volts_error, amperes_error,
                 state ? state : &none, state ? state_length : 0);
}

static inline uint32_t post_tick(uint8_t *state, size_t state_length, const uint8_t *input,
                                 size_t input_length, uint8_t *output, size_t output_length) {
    uint8_t none[3] = {0, 0, 0}; /* three, as buffers do not overlap */
    return tick(state ? state : &none[0], state ? state_length : 0, input ? input : &none[1],
                input ? input_length : 0, output ? output : &none[2], output ? output_length : 0);
}

/* Numbers in the buffers, byte by byte: at any address, and in the same order on every machine. */
static inline void post_put_u16(uint8_t *place, uint16_t number) {
    place[0] = (uint8_t)(number & 0xFF);
    place[1] = (uint8_t)(number >> 8);
}

static inline void post_put_u32(uint8_t *place, uint32_t number) {
    post_put_u16(place, (uint16_t)(number & 0xFFFF));
    post_put_u16(place + 2, (uint16_t)(number >> 16));
}

static inline uint16_t post_get_u16(const uint8_t *place) {
    return (uint16_t)(place[0] | place[1] << 8);
}

static inline uint32_t post_get_u32(const uint8_t *place) {
    return post_get_u16(place) | (uint32_t)post_get_u16(place + 2) << 16;
}

static inline uint64_t post_get_u64(const uint8_t *place) {
    return post_get_u32(place) | (uint64_t)post_get_u32(place + 4) << 32;
}

/* The 32 bits of a float, as setup takes them and the buffers hold them. */
static inline uint32_t post_float_bits(float number) {
    uint32_t bits;
    memcpy(&bits, &number, sizeof bits);
    return bits;
}

static inline void post_put_float(uint8_t *place, float number) {
    post_put_u32(place, post_float_bits(number));
}

static inline float post_get_float(const uint8_t *place) {
    uint32_t bits = post_get_u32(place);
    float number;
    memcpy(&number, &bits, sizeof number);
    return number;
}

/*
 * When a call is refused, or comes late. The output still holds the command of the last tick done,
 * and nobody has asked since whether it may be given. A command is good for its own tick: where no
 * tick has been done 110 ms after the last one (Table A.12: a cycle of 100 ms, up to 10 more), or
 * one was refused, the host makes the emergency stop by itself, at every lead of the post. Let a
 * timer beside the ticks see to the first.
 * 1. At once: 0 A and no test volts to the converters, their gates blocked, and no frames. By
 *    Tables A.19 and A.35 the current falls by 200 A/s or more: from 125 A to 5 A within 0.6 s,
 *    from 200 A within 1 s. (The 30 ms that they give when permission or lock circuit open are less
 *    than a tick: hardware sees to them on a path of its own, A.5.2.7.)
 * 2. At 5 A or less and not before, in an emergency too (A.7.2.8): d1, d2 and the post's relays
 *    open. Up to here a tick that is done again takes over: its output is driven as always, but for
 *    the current, which rises from where it stands by no more than 2 A a tick. H'108 knows nothing
 *    of the cut: until the current has risen again the car is offered more than it gets.
 *    From here on the charge is over, as none recovers by itself (A.7.2.10): whatever is commanded,
 *    no current, and d1, d2 and the relays stay open until the lead shows POST_PHASE_IDLE.
 * 3. The lock stays locked until the connector has less than 10 V (Table A.17).
 *
 * What the numbers tell a host:
 * - 1 to 5, 7, 8 and 32: a mistake in its code or its settings. The same call is refused again.
 * - 6: the state is damaged, of another edition or of a wrong length. Stay cut off. setup begins
 *   anew, but it forgets every lead, and the next tick drives no lock: only with all unplugged.
 * - 9: that input was not sound. Ages and silences have stood still, its frames were not heard; a
 *   tick with a sound input goes on from there.
 */

/* What the calls return; each call's refusals stand in the order of asking. */
#define POST_DONE                     0
#define POST_REFUSED_LEADS            1  /* setup: not POST_LEADS_MIN to POST_LEADS_MAX leads */
#define POST_REFUSED_RATED_VOLTS      2  /* setup: not POST_RATED_VOLTS_MIN to _MAX */
#define POST_REFUSED_RATED_AMPERES    3  /* setup: not POST_RATED_AMPERES_MIN to _MAX */
#define POST_REFUSED_CABLE_RESISTANCE 4  /* setup: not a float from 0 to 1 */
#define POST_REFUSED_METER_ERROR      32 /* setup: an error above POST_METER_ERROR_MAX */
#define POST_REFUSED_STATE_LENGTH     5  /* setup: not POST_STATE_LENGTH(leads) bytes */
#define POST_REFUSED_STATE            6  /* tick: not a good state, or of another length */
#define POST_REFUSED_INPUT_LENGTH     7  /* tick: not POST_INPUT_LENGTH(leads) bytes */
#define POST_REFUSED_OUTPUT_LENGTH    8  /* tick: not POST_OUTPUT_LENGTH(leads) bytes */
#define POST_REFUSED_INPUT            9  /* tick: a spare bit or byte not 0, too many frames */

/* What setup takes. */
#define POST_LEADS_MIN         1
#define POST_LEADS_MAX         4
#define POST_RATED_VOLTS_MIN   50
#define POST_RATED_VOLTS_MAX   500
#define POST_RATED_AMPERES_MIN 1
#define POST_RATED_AMPERES_MAX 200
#define POST_METER_ERROR_MAX   50 /* tenths */

/*
 * Inexact meters. A reading stands for every value from its tenths less the error, at least 0, to
 * its tenths plus the error: amperes by the ammeter's, volts at the connector by the voltmeter's
 * alone, which comes on top of the cable's correction. Five limits are kept only if each of these
 * values keeps them; so the error is added before they are asked:
 * - those of reasons 16 and 17, POST_REASON_OVERVOLTAGE and POST_REASON_OVERCURRENT;
 * - 10 V at the connector, in POST_PHASE_TEST_DISCHARGE and POST_PHASE_FINAL_DISCHARGE;
 * - 4.9 A, in POST_PHASE_RAMP_DOWN.
 * Nothing else knows the errors: neither whether a reading is good, nor what H'109 shows.
 *
 * What large errors bring, for whoever sets a post up; setup takes all of these:
 * - A volts' error: a charge stops with 16 as soon as less than the error is left between reading
 *   and threshold. Both discharges last until the reading is 10 V less the error, with 50 until it
 *   is 5.0 V: the first for 5 s at most, then the lead stops with 28; the second, and with it the
 *   lock, without a limit.
 * - An amperes' error above 25: question 17 passes rated + 2.5 A less the error, which is less than
 *   the rated amperes. A lead that gives these, by the meter, stops with 17.
 * - An amperes' error of 50: no reading ends the ramp-down, which takes its 3 s (or ends by an
 *   urgent stop).
 * - 1 rated ampere and an amperes' error above 35, or 2 and one above 45: no reading passes
 *   question 17, and every lead stops with it before it charges.
 */

/* Lengths in bytes. */
#define POST_HEAD_LENGTH         10  /* of the state, before its lead records */
#define POST_LEAD_LENGTH         32  /* one lead record of the state */
#define POST_POWER_LIMIT_LENGTH  4   /* of the input, before its lead records */
#define POST_INPUT_LEAD_LENGTH   104 /* one lead record of the input */
#define POST_FRAME_RECORDS       8   /* frame records in one lead record of the input */
#define POST_FRAME_RECORD_LENGTH 11
#define POST_FRAME_DATA_LENGTH   8  /* data of a frame; with another length it is ignored */
#define POST_OUTPUT_LEAD_LENGTH  24 /* one lead record of the output */

#define POST_STATE_LENGTH(leads) (POST_HEAD_LENGTH + POST_LEAD_LENGTH * (size_t)(leads))
#define POST_INPUT_LENGTH(leads)                                                                   \
    (POST_POWER_LIMIT_LENGTH + POST_INPUT_LEAD_LENGTH * (size_t)(leads))
#define POST_OUTPUT_LENGTH(leads) (POST_OUTPUT_LEAD_LENGTH * (size_t)(leads))

/* Where the record of a lead begins, the first lead being 0: after those before it. */
#define POST_STATE_LEAD(lead)  POST_STATE_LENGTH(lead)
#define POST_INPUT_LEAD(lead)  POST_INPUT_LENGTH(lead)
#define POST_OUTPUT_LEAD(lead) POST_OUTPUT_LENGTH(lead)

/*
 * The edition of the state: where its bytes stand and what they mean. Store it beside a state that
 * is to outlive the program. Bytes stored under another number are not to be handed in, as they
 * might pass for good and mean something else: begin anew with setup, when all leads are unplugged.
 * Do so after a break of more than a tick too, as a state goes on as if no time had passed; energies
 * that are wanted are read from the stored bytes before.
 */
#define POST_STATE_VERSION 3

/* State: its head. */
#define POST_HEAD_LEADS            0
#define POST_HEAD_RATED_AMPERES    1
#define POST_HEAD_RATED_VOLTS      2 /* 2 bytes */
#define POST_HEAD_CABLE_RESISTANCE 4 /* float */
#define POST_HEAD_VOLTS_ERROR      8 /* tenths */
#define POST_HEAD_AMPERES_ERROR    9 /* tenths */

/* State: places in the record of a lead. */
#define POST_LEAD_PHASE           0
#define POST_LEAD_REASON          1
#define POST_LEAD_COMMAND         2  /* amperes */
#define POST_LEAD_REQUEST         3  /* amperes */
#define POST_LEAD_FAULTS          4  /* that byte of H'102, whole */
#define POST_LEAD_STATUS          5  /* that byte of H'102, whole */
#define POST_LEAD_SILENCE         6  /* ticks without H'102, up to 255, see below */
#define POST_LEAD_SEEN            7  /* POST_SEEN_ bits */
#define POST_LEAD_THRESHOLD       8  /* 2 bytes, volts */
#define POST_LEAD_MAXIMUM_VOLTAGE 10 /* 2 bytes, of the battery */
#define POST_LEAD_TARGET_VOLTAGE  12 /* 2 bytes */
#define POST_LEAD_TIME_TENS       14 /* that byte of H'101 */
#define POST_LEAD_TIME_MINUTES    15 /* that byte of H'101 */
#define POST_LEAD_AGE             16 /* 4 bytes, ticks that it has stayed in its phase */
#define POST_LEAD_ENERGY          20 /* 8 bytes, watt-ticks, see below */
#define POST_LEAD_SPARE           28 /* from here to the end 0 */

/* The silence counts from the start of the lead on, before its first H'102 too; a tick with an
 * H'102 sets it to 0. In phases 0, 9 and 10 it stands still. */

/*
 * The energy is what the lead was commanded since its latest start: amperes times the threshold's
 * volts, summed over the ticks done. So it is no meter's kilowatt-hours, no bound on what flowed
 * (the meter's amperes are held to the rating plus 2.5 A, see POST_REASON_OVERCURRENT, not to the
 * command) and nothing to bill by. Each tick counts as a tenth of a second, however long it took.
 * The start (phase 0 to 1) sets it to 0, and nothing else does but setup: it is kept while the lead
 * is ended and idle. A host that wants it of each charge reads it before the next start, best when
 * the lead comes to POST_PHASE_ENDED, as every started one does before it is idle again.
 * It never wraps: it stops at its largest value, 2^64 - 1, which would take some 584,000 years of
 * ticks at 200 A and 500 V.
 */
#define POST_WATT_TICKS_PER_KWH 36000000 /* 1000 W for 3600 s of ten ticks */

/* Which frames of the car the lead has seen since its start. */
#define POST_SEEN_H100 0x01
#define POST_SEEN_H101 0x02
#define POST_SEEN_H102 0x04

/* Input: what the whole post may give out in this tick, in watts ("allowance"), 4 bytes. */
#define POST_INPUT_POWER_LIMIT 0

/* Input: places in the record of a lead. */
#define POST_INPUT_CONTACTS    0  /* POST_CONTACT_ bits */
#define POST_INPUT_PRESENT     1  /* POST_PRESENT_ bits */
#define POST_INPUT_FRAME_COUNT 2  /* frame records filled, 0 to POST_FRAME_RECORDS */
#define POST_INPUT_SPARE       3  /* 0 */
#define POST_INPUT_VOLTS       4  /* float, at the meter */
#define POST_INPUT_AMPERES     8  /* float */
#define POST_INPUT_INSULATION  12 /* float, ohms ("resistance") */
#define POST_INPUT_FRAMES      16 /* the frame records */

/* Where a frame record begins in the record of a lead, the first being 0. Those past the count
 * are ignored. A host that has received more frames hands in the newest of each identifier. */
#define POST_INPUT_FRAME(record) (POST_INPUT_FRAMES + POST_FRAME_RECORD_LENGTH * (size_t)(record))

/* Contacts closed, buttons pressed; bit 7 is 0. */
#define POST_CONTACT_PLUG             0x01 /* at a lead with a GB/T plug: by plug_sensing.h */
#define POST_CONTACT_PERMISSION       0x02
#define POST_CONTACT_LOCK             0x04
#define POST_CONTACT_EMERGENCY_BUTTON 0x08
#define POST_CONTACT_STOP_BUTTON      0x10
#define POST_CONTACT_START_BUTTON     0x20
#define POST_CONTACT_GROUND_FAULT     0x40 /* "leak trip" */

/* Readings present; bits 3 to 7 are 0. The bytes of a missing one may hold anything. Volts and
 * amperes are good together: both present, 0 to 1000 V and 0 to 400 A. They are judged in tenths, of
 * volts at the connector and of amperes, rounded up; see "Inexact meters" too. */
#define POST_PRESENT_VOLTS      0x01
#define POST_PRESENT_AMPERES    0x02
#define POST_PRESENT_INSULATION 0x04

/* Frame record: places. Of several with one identifier in a tick the last counts. */
#define POST_FRAME_IDENTIFIER 0 /* 2 bytes */
#define POST_FRAME_LENGTH     2 /* POST_FRAME_DATA_LENGTH, or it is ignored */
#define POST_FRAME_DATA       3

/* Identifiers of the frames: the car sends the first three, the post the last two. */
#define POST_H100 0x100
#define POST_H101 0x101
#define POST_H102 0x102
#define POST_H108 0x108
#define POST_H109 0x109

/* Places in the data of the car's frames. */
#define POST_H100_MAXIMUM_VOLTAGE 4    /* 2 bytes, of the battery */
#define POST_H101_TIME_TENS       1    /* charging time in tens of seconds, or: */
#define POST_H101_USE_MINUTES     0xFF /* this value there says that the minutes hold */
#define POST_H101_TIME_MINUTES    2
#define POST_H102_TARGET_VOLTAGE  1 /* 2 bytes */
#define POST_H102_REQUEST         3 /* amperes */
#define POST_H102_FAULTS          4 /* POST_FAULTS_MASK */
#define POST_H102_STATUS          5 /* POST_STATUS_ bits */

#define POST_FAULTS_MASK 0x1F /* the bits of the faults byte that are faults */

#define POST_STATUS_ENABLED        0x01
#define POST_STATUS_NOT_IN_PARK    0x02
#define POST_STATUS_SYSTEM_FAULT   0x04
#define POST_STATUS_CONTACTOR_OPEN 0x08
#define POST_STATUS_STOP_REQUEST   0x10

/* Output: places in the record of a lead. */
#define POST_OUTPUT_PHASE      0
#define POST_OUTPUT_REASON     1
#define POST_OUTPUT_COMMAND    2  /* amperes to give */
#define POST_OUTPUT_SWITCHES   3  /* POST_SWITCH_ bits */
#define POST_OUTPUT_TEST_VOLTS 4  /* 2 bytes, in the insulation test, else 0 */
#define POST_OUTPUT_SPARE      6  /* 2 bytes, 0 */
#define POST_OUTPUT_H108       8  /* the data of H'108 */
#define POST_OUTPUT_H109       16 /* the data of H'109 */

/* What the host is to switch. */
#define POST_SWITCH_D1     0x01 /* first charge sequence signal */
#define POST_SWITCH_D2     0x02 /* second charge sequence signal */
#define POST_SWITCH_LOCK   0x04
#define POST_SWITCH_FRAMES 0x08 /* H'108 and H'109 are to be sent */

/* Places in the data of the post's frames. */
#define POST_H108_WELD_DETECTION  0 /* always 1 */
#define POST_H108_RATED_VOLTS     1 /* 2 bytes */
#define POST_H108_OFFERED_AMPERES 3 /* see below */
#define POST_H108_THRESHOLD       4 /* 2 bytes, volts; 0 until it is known */
#define POST_H109_PROTOCOL        0 /* always 2 */
#define POST_H109_VOLTS           1 /* 2 bytes, at the connector, rounded up */
#define POST_H109_AMPERES         3 /* rounded up, at most 255 */
#define POST_H109_FLAGS           5 /* POST_FLAG_ bits */
#define POST_H109_TIME_TENS       6 /* remaining time, tens of seconds or POST_H101_USE_MINUTES */
#define POST_H109_TIME_MINUTES    7

/*
 * Amperes offered: the rated amperes, but while the lead charges (POST_PHASE_CHARGING) no more than
 * this tick's level carries at its threshold. The level is the post's, one for all leads: the power
 * limit where all that the leads want fits into it, else the watts up to which each gets what it
 * wants. So the byte may change with every tick, POST_OUTPUT_COMMAND is never above it, and cars
 * watch it: both frames are to be sent as this tick has them, together with its command.
 */

#define POST_FLAG_CHARGING           0x01
#define POST_FLAG_MALFUNCTION        0x02 /* of the post: reasons 13, 15 to 18, 27 */
#define POST_FLAG_LOCKED             0x04 /* the lock contact is closed */
#define POST_FLAG_INCOMPATIBLE       0x08 /* reason 21 */
#define POST_FLAG_SYSTEM_MALFUNCTION 0x10 /* the conversation failed: reasons 19, 28 */
#define POST_FLAG_STOP_CONTROL       0x20 /* set unless charging */

/* Phases of a lead. */
#define POST_PHASE_IDLE              0
#define POST_PHASE_HANDSHAKE         1
#define POST_PHASE_LOCKING           2
#define POST_PHASE_INSULATION_TEST   3
#define POST_PHASE_TEST_DISCHARGE    4 /* of the test voltage */
#define POST_PHASE_CONTACTOR_CLOSING 5
#define POST_PHASE_CHARGING          6
#define POST_PHASE_RAMP_DOWN         7
#define POST_PHASE_WELD_CHECK        8
#define POST_PHASE_FINAL_DISCHARGE   9 /* before unlocking */
#define POST_PHASE_ENDED             10

/* Why a lead stopped. 11 to 18 are urgent: no current in that very tick. So is 23 where, in phases
 * 2 to 6, the car's permission opened in the very tick whose H'102 says not enabled; by H'102 alone
 * 23 is an ordinary stop. Phase and command say all that a host has to do about a stop; the number
 * is for the desk, and nothing is to be worked out from it. */
#define POST_REASON_NONE                 0
#define POST_REASON_EMERGENCY_BUTTON     11
#define POST_REASON_UNPLUGGED            12 /* the plug contact opened */
#define POST_REASON_GROUND_FAULT         13 /* "leak trip" */
#define POST_REASON_PERMISSION_OPEN      14 /* the car's permission wire opened; see above */
#define POST_REASON_BAD_READING          15 /* volts or amperes missing or out of range */
#define POST_REASON_OVERVOLTAGE          16 /* connector volts and error above the threshold */
#define POST_REASON_OVERCURRENT          17 /* amperes and error above rated + 2.5 */
#define POST_REASON_UNLOCKED             18 /* the lock contact opened */
#define POST_REASON_CAR_SILENT           19 /* no H'102 for ten ticks */
#define POST_REASON_CAR_FAULT            20 /* reported by the car */
#define POST_REASON_INCOMPATIBLE_VOLTAGE 21 /* the battery's voltages do not suit the post */
#define POST_REASON_NOT_IN_PARK          22
#define POST_REASON_NOT_ENABLED          23 /* the car no longer enables charging */
#define POST_REASON_STOP_REQUEST         24 /* by the car */
#define POST_REASON_CONTACTOR_OPEN       25 /* the car's contactor opened */
#define POST_REASON_STOP_BUTTON          26
#define POST_REASON_LOW_INSULATION       27 /* not at least 100 ohms a volt of the threshold */
#define POST_REASON_PHASE_TIMEOUT        28 /* a phase took too long */
#define POST_REASON_CHARGING_TIME_OVER   29 /* the car's charging time is over */

#endif
