/*
 * The receive chip of the post's new board, a CAN receiver with registers of one byte, as the C
 * host in the post calls it. Link with libreceiver.a, an archive for x86-64 Linux. It stands by
 * itself: the tick of post.h knows nothing of it, and the host carries the frames across.
 *
 * The library stands in for the hardware. It models the chip's registers as bytes in the host's
 * memory and drives no chip, no bus and no interrupt: the host says when a frame arrives, and asks
 * whether the line is up.
 *
 * A receiver is one buffer of 93 bytes: the 92 registers in the chip's order (status, overrun,
 * interrupt mask, acknowledge, eight mailboxes of 11 bytes) and then the turn, which says the
 * mailbox that is filled next. Call receiver_power_up_checked() once and receiver_arrive_checked()
 * for each frame that comes in. Before a tick of the post, at most POST_FRAME_RECORDS times and
 * while RECEIVER_STATUS does not read 0, let receiver_drain_checked() write into the next frame
 * record of the lead's input, and put their number into POST_INPUT_FRAME_COUNT. examples/host.c
 * does so.
 *
 * What the chip does is said by request 2026-02 of document 02. Registers, mailboxes and bytes
 * count from 0, bits from 0 as the lowest.
 *
 * What is left to the caller, as a pointer and a length cannot be checked:
 * - A pointer is valid for its whole length until the call returns; those that are not const, for
 *   writing. The six calls take no NULL, not even with length 0: the compiled code may assume so.
 *   The functions that end in _checked have it refused; use them.
 * - The buffers of one call do not overlap: a frame is not drained into the receiver's own bytes.
 * - No other thread touches them during the call, and no interrupt handler: where frames arrive in
 *   one, keep it out while the receiver is read, written or drained.
 * - Between the calls the receiver belongs to the library: keep it and hand it back byte for byte.
 *   Looking at it is harmless.
 *
 * Everything else is checked: any numbers, any lengths and any bytes are carried out or refused
 * with the first number below that fits. A refused call changes no byte. Any 93 bytes are taken as
 * a receiver, those that no chip comes to as well: the turn counts modulo 8 there, and acknowledge
 * reads 0.
 *
 * What the calls need:
 * - Alignment: none. A buffer may begin at any address.
 * - Stack: at most 16 bytes, the return address and, in a read, one register (seen in the archive:
 *   no call calls anything).
 * - Threads: the library has no memory of its own, so calls on different buffers may run at once.
 *   A host may keep several receivers, such as one a lead.
 * - Time: every call ends, and takes less than a tenth of a microsecond.
 * - The archive is one ELF object for an x86-64 processor of level v2 (SSE4.2, POPCNT) or above,
 *   with position-independent code and System V calls. From elsewhere it needs nothing.
 */
#ifndef RECEIVER_H_INCLUDED
#define RECEIVER_H_INCLUDED

#include <stddef.h>
#include <stdint.h>

#ifdef __cplusplus
extern "C" {
#endif

/*
 * In all calls receiver_length is RECEIVER_LENGTH, or the call is refused with
 * RECEIVER_REFUSED_RECEIVER. Each returns RECEIVER_DONE or a refusal.
 */

/* Begins a receiver: every register 0, and the first mailbox next. The bytes before are not asked
 * about. */
uint32_t receiver_power_up(uint8_t *receiver, size_t receiver_length);

/*
 * Reads a register into value, 1 byte (else RECEIVER_REFUSED_ROOM). Acknowledge reads 0; an emptied
 * mailbox still reads what it held. RECEIVER_REFUSED_REGISTER, before any length is asked about,
 * where the number is not below RECEIVER_REGISTERS.
 */
uint32_t receiver_read(const uint8_t *receiver, size_t receiver_length, uint32_t number,
                       uint8_t *value, size_t value_length);

/*
 * Writes a register, as the chip takes it: the mask is set to the value, overrun becomes 0 by any
 * value, and each 1 bit to acknowledge empties that mailbox. Writes to status and to a mailbox
 * change nothing and are no mistake: RECEIVER_DONE. RECEIVER_REFUSED_REGISTER as with reading.
 */
uint32_t receiver_write(uint8_t *receiver, size_t receiver_length, uint32_t number, uint8_t value);

/*
 * A frame arrives, RECEIVER_FRAME_LENGTH bytes (else RECEIVER_REFUSED_FRAME): it fills the turn's
 * mailbox, and the turn moves on. Where that mailbox is full, the frame is lost, overrun becomes 1
 * and the turn stays; that is no refusal. Nothing in the frame is judged: that it is laid out as a
 * frame record of post.h matters to the tick alone.
 */
uint32_t receiver_arrive(uint8_t *receiver, size_t receiver_length, const uint8_t *frame,
                         size_t frame_length);

/*
 * Writes the frame held longest into frame, RECEIVER_FRAME_LENGTH bytes (else
 * RECEIVER_REFUSED_ROOM), and empties its mailbox. That is the first full one from the turn's
 * upward, round the ring. With none held nothing changes, frame neither, and RECEIVER_DONE is
 * returned all the same: whether one is held is what RECEIVER_STATUS tells before. From then on the
 * frame is the host's: where the tick that it was fetched for is refused, it was not heard, and no
 * register tells of it.
 */
uint32_t receiver_drain(uint8_t *receiver, size_t receiver_length, uint8_t *frame,
                        size_t frame_length);

/* Writes the interrupt line into line, 1 byte (else RECEIVER_REFUSED_ROOM): 1, up, exactly when
 * status and mask share a bit, else 0. Overrun does not raise it. */
uint32_t receiver_line(const uint8_t *receiver, size_t receiver_length, uint8_t *line,
                       size_t line_length);

#ifdef __cplusplus
}
#endif

/*
 * The same six calls for a host: a NULL, with any length, is handed on as an empty buffer, so that
 * the library refuses it with its own number: 6, 7 or 8, or 30 where the register is wrong too.
 */
static inline uint32_t receiver_power_up_checked(uint8_t *receiver, size_t receiver_length) {
    uint8_t none = 0;
    return receiver_power_up(receiver ? receiver : &none, receiver ? receiver_length : 0);
}

static inline uint32_t receiver_read_checked(const uint8_t *receiver, size_t receiver_length,
                                             uint32_t number, uint8_t *value, size_t value_length) {
    uint8_t none[2] = {0, 0}; /* two, as buffers do not overlap */
    return receiver_read(receiver ? receiver : &none[0], receiver ? receiver_length : 0, number,
                         value ? value : &none[1], value ? value_length : 0);
}

static inline uint32_t receiver_write_checked(uint8_t *receiver, size_t receiver_length,
                                              uint32_t number, uint8_t value) {
    uint8_t none = 0;
    return receiver_write(receiver ? receiver : &none, receiver ? receiver_length : 0, number,
                          value);
}

static inline uint32_t receiver_arrive_checked(uint8_t *receiver, size_t receiver_length,
                                               const uint8_t *frame, size_t frame_length) {
    uint8_t none[2] = {0, 0};
    return receiver_arrive(receiver ? receiver : &none[0], receiver ? receiver_length : 0,
                           frame ? frame : &none[1], frame ? frame_length : 0);
}

static inline uint32_t receiver_drain_checked(uint8_t *receiver, size_t receiver_length,
                                              uint8_t *frame, size_t frame_length) {
    uint8_t none[2] = {0, 0};
    return receiver_drain(receiver ? receiver : &none[0], receiver ? receiver_length : 0,
                          frame ? frame : &none[1], frame ? frame_length : 0);
}

static inline uint32_t receiver_line_checked(const uint8_t *receiver, size_t receiver_length,
                                             uint8_t *line, size_t line_length) {
    uint8_t none[2] = {0, 0};
    return receiver_line(receiver ? receiver : &none[0], receiver ? receiver_length : 0,
                         line ? line : &none[1], line ? line_length : 0);
}

/*
 * When overrun reads 1. One frame or more was lost since overrun was last written, or since
 * power-up; how many is not counted, and drains, acknowledges and later frames leave it 1. The
 * frames lost are newer than those held at the time: the last that the car said may be among them.
 * The host
 * 1. drains, as every further frame is lost until the turn's mailbox is empty;
 * 2. writes overrun, any value, so that the next loss shows (arrivals kept out between reading and
 *    writing it, or a loss between them is not told);
 * 3. tells the desk.
 * The tick needs no word of it. To the post a frame that was lost is one that was not sent, and a
 * lead that hears no H'102 for ten ticks stops (POST_REASON_CAR_SILENT). A host that finds it often
 * drains too seldom: eight frames are held and no more.
 *
 * Draining frees the mailboxes in the order of their filling. A host that reads the mailboxes
 * itself and empties them by acknowledge has to see to that order: while the turn's mailbox is
 * full, frames are lost even where all others are empty.
 *
 * What the numbers tell a host. Each is a mistake in its code: the same call is refused again.
 * - 30: there is no such register. All 32 bits of the number count, and the turn is no register.
 * - 6: the receiver is NULL or of a wrong length. It never says that the bytes are damaged, as any
 *   are taken: that is the post's 6.
 * - 7: the frame was not received, and overrun does not tell of it.
 * - 8: nothing was written into the room lent; a frame that was to be drained is still held.
 */

/* What the calls return. */
#define RECEIVER_DONE             0
#define RECEIVER_REFUSED_REGISTER 30 /* read, write: not below RECEIVER_REGISTERS; asked first */
#define RECEIVER_REFUSED_RECEIVER 6  /* all: not RECEIVER_LENGTH bytes */
#define RECEIVER_REFUSED_FRAME    7  /* arrive: not RECEIVER_FRAME_LENGTH bytes */
#define RECEIVER_REFUSED_ROOM     8  /* read, line: not 1 byte; drain: not RECEIVER_FRAME_LENGTH */

/* Numbers of bytes, registers and mailboxes. */
#define RECEIVER_LENGTH       93 /* the registers and the turn */
#define RECEIVER_REGISTERS    92
#define RECEIVER_MAILBOXES    8
#define RECEIVER_FRAME_LENGTH 11 /* a mailbox, and a frame record of post.h */

/* Registers: their numbers, which are their places in the receiver too. */
#define RECEIVER_STATUS      0 /* bit k: mailbox k is full */
#define RECEIVER_OVERRUN     1 /* 1: a frame was lost, see above */
#define RECEIVER_MASK        2 /* bit k: mailbox k raises the line while it is full */
#define RECEIVER_ACKNOWLEDGE 3 /* written, bit k: empties mailbox k, which keeps its bytes */

/* The first register of a mailbox, the first mailbox being 0. */
#define RECEIVER_MAILBOX(k) (RECEIVER_ACKNOWLEDGE + 1 + RECEIVER_FRAME_LENGTH * (uint32_t)(k))

/* The place of the turn in the receiver; it is no register. It counts modulo 8, and is below 8 once
 * it has moved. */
#define RECEIVER_TURN 92

#endif
