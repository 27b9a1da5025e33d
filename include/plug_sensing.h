/*
 * The plug of a lead with the system B coupler (GB/T), as the C host in the post calls it. Link
 * with libplug_sensing.a, an archive for x86-64 Linux. It stands by itself: the tick of post.h
 * knows nothing of it, and the host carries the bit across. A lead with another coupler has no use
 * for it.
 *
 * Such a coupler has no plug contact. The board measures the voltage of detection point 1 instead,
 * by which source document 000 (Tables B.1, B.2) tells whether the connector is in the inlet:
 *
 *     range   millivolts         in the source                        here
 *     U1a     11,200 to 12,800   unplugged                            open
 *     U1b      5,200 to  6,800   unplugged, or plugged in with        open; closed only just
 *                                switch S in the connector open       after a value in U1c
 *     U1c      3,200 to  4,800   plugged in, S closed                 closed
 *             else, to 20,000    (nothing is said)                    open
 *
 * So S may be open for one tick without an end of the charge; a second value in U1b in a row is
 * open, and a lead that charges stops with POST_REASON_UNPLUGGED.
 *
 * A lead's state is one byte, in which the library keeps whether the last value that was not
 * refused lay in U1c. A fresh state is that byte 0, PLUG_FRESH_STATE: the host sets it when the
 * post starts and after any break in the ticks, and there is no call for it. Exactly once in each
 * tenth of a second, before the tick, also where that tick is then refused, let
 * plug_sense_checked() write the bit, and put it where the lead's input has its plug contact:
 *
 *     uint8_t plug = PLUG_OPEN;
 *     uint32_t number = plug_sense_checked(&state, 1, millivolts, &plug, 1);
 *     record[POST_INPUT_CONTACTS] &= (uint8_t)~POST_CONTACT_PLUG;
 *     if (plug == PLUG_CLOSED)
 *         record[POST_INPUT_CONTACTS] |= POST_CONTACT_PLUG;
 *
 * A refused call writes nothing. With the byte set to PLUG_OPEN ahead, as here, the lead is taken
 * as unplugged then, which is the safe side: it commands no current. (One that has ended may then
 * be started anew.) Tell the desk of a refused call, and note the millivolts when the bit changes,
 * as it asks for them. examples/host.c does so.
 *
 * What the call does is said by request 2026-07 of document 02.
 *
 * What is left to the caller, as a pointer and a length cannot be checked:
 * - A pointer is valid, for reading and writing, for its whole length until the call returns.
 *   plug_sense() takes no NULL, not even with length 0: the compiled code may assume so.
 *   plug_sense_checked() has it refused; use that.
 * - State and plug do not overlap.
 * - No other thread touches them during the call.
 * - Between the calls the state belongs to the library: keep it and hand it back as it is.
 *
 * Everything else is checked: any value, any lengths and any bytes are carried out or refused with
 * the first number below that fits. A refused call changes no byte.
 *
 * What the call needs:
 * - Alignment: none.
 * - Stack: 16 bytes, the return address and one register (seen in the archive: it calls nothing).
 * - Threads: the library has no memory of its own, so calls on different states may run at once.
 *   Each lead with such a plug has a state of its own.
 * - Time: the call ends, after at most 38 instructions and no loop (seen in the archive).
 * - The archive is one ELF object for an x86-64 processor of level v2 (SSE4.2, POPCNT) or above,
 *   with position-independent code and System V calls. From elsewhere it needs nothing.
 */
#ifndef PLUG_SENSING_H_INCLUDED
#define PLUG_SENSING_H_INCLUDED

#include <stddef.h>
#include <stdint.h>

#ifdef __cplusplus
extern "C" {
#endif

/*
 * Writes PLUG_CLOSED or PLUG_OPEN into plug, and keeps in the state what the next value's bit hangs
 * on. Returns PLUG_DONE or the first refusal that fits, in this order:
 * - PLUG_REFUSED_MILLIVOLTS: the value is above PLUG_LARGEST_MILLIVOLTS. It is left out: the bit of
 *   the next value is what it would be without it.
 * - PLUG_REFUSED_STATE: the state is not of PLUG_STATE_LENGTH, or its byte is neither 0 nor 1.
 * - PLUG_REFUSED_ROOM: plug is not of PLUG_LENGTH. This value is left out as well.
 */
uint32_t plug_sense(uint8_t *state, size_t state_length, uint32_t millivolts, uint8_t *plug,
                    size_t plug_length);

#ifdef __cplusplus
}
#endif

/* The same for a host: a NULL, with any length, is handed on as an empty buffer, so that the
 * library refuses it with its own number: 6 or 8, or 31 where the value is too large as well. */
static inline uint32_t plug_sense_checked(uint8_t *state, size_t state_length, uint32_t millivolts,
                                          uint8_t *plug, size_t plug_length) {
    uint8_t none[2] = {0, 0}; /* two, as buffers do not overlap */
    return plug_sense(state ? state : &none[0], state ? state_length : 0, millivolts,
                      plug ? plug : &none[1], plug ? plug_length : 0);
}

/*
 * What the numbers tell a host. As the plug is taken as open, a lead that charges ends by any of
 * them with POST_REASON_UNPLUGGED.
 * - 31: the board measured what no coupler gives, or could not measure; or the value is not in
 *   millivolts. All 32 bits of it count. A value below 0 is to be handed in as 0, and one that is
 *   missing as anything above PLUG_LARGEST_MILLIVOLTS.
 * - 6: a mistake in the host's code, which handed in something other than a fresh state or what the
 *   call before left, or memory that went wrong. The same call is refused again; begin with a fresh
 *   state and find the cause. A state that began fresh and was left alone is never refused.
 * - 8: a mistake in the host's code; the same call is refused again.
 */

/* What the call returns. */
#define PLUG_DONE               0
#define PLUG_REFUSED_MILLIVOLTS 31 /* asked first */
#define PLUG_REFUSED_STATE      6
#define PLUG_REFUSED_ROOM       8

/* Numbers of bytes. */
#define PLUG_STATE_LENGTH 1
#define PLUG_LENGTH       1

/* The byte of a state before the first call, and what the call writes into plug. */
#define PLUG_FRESH_STATE 0
#define PLUG_OPEN        0
#define PLUG_CLOSED      1

/* Millivolts: the largest value that is taken, and Table B.2's ranges, both ends of which belong to
 * them. */
#define PLUG_LARGEST_MILLIVOLTS 20000
#define PLUG_U1A_MIN            11200
#define PLUG_U1A_MAX            12800
#define PLUG_U1B_MIN            5200
#define PLUG_U1B_MAX            6800
#define PLUG_U1C_MIN            3200
#define PLUG_U1C_MAX            4800

#endif
