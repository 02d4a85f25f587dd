/* The SC16IS752 as events on its registers and lines, one record a chip.
 *
 * What the caller owes:
 * - chip is not null and points to sizeof(struct sc16is752) bytes that the caller may read and write. Any alignment does.
 * - Before sc16is752_new the record is zeroed, once. Before sc16is752_step and sc16is752_drain it has been through
 *   sc16is752_new.
 * - Only these three functions write the record. Reading it, and copying it whole to another record, is free. A record from
 *   anywhere else has to be well formed: in each queue start < 64, count <= 64 and every mark < 8, in line
 *   quiet <= 4, in modem pins < 16 and changes < 16, in settings bits 3:1 of fcr, 3 of mcr and 7, 6 and 3 of efcr 0, and
 *   in every bool 0 or 1.
 * - bytes, and buffer alike, is not null and points to length bytes that the caller may read and write; a length of 0 will
 *   do. buffer has no byte of the record.
 * - While a call runs, nothing else touches its record, its bytes or its buffer: one thread at a time, and no signal handler
 *   between.
 * - The program has memcpy, its own or a C library's. The archives ask for nothing else from outside.
 *
 * In return, each record, each byte and each answer is exactly what the document's rules say of the record before and the
 * event or drain, and the record is well formed again. The functions keep no other state, allocate nothing and do not fail.
 */
#ifndef SC16IS752_H
#define SC16IS752_H

#include <stdbool.h>
#include <stddef.h>
#include <stdint.h>

#ifdef __cplusplus
extern "C" {
#endif

/* The stored registers of a channel. */
struct sc16is752_settings {
    uint8_t lcr;
    uint8_t ier;
    uint8_t fcr;
    uint8_t mcr;
    uint8_t spr;
    uint8_t efr;
    uint8_t efcr;
    uint8_t tcr;
    uint8_t tlr;
    uint8_t dll;
    uint8_t dlh;
    uint8_t xon1;
    uint8_t xon2;
    uint8_t xoff1;
    uint8_t xoff2;
};

/* Characters and their marks: count of them from the place start on, going round at 64. */
struct sc16is752_queue {
    uint8_t bytes[64];
    uint8_t marks[64];
    uint8_t start;
    uint8_t count;
};

/* The overrun bit, and the quiet character times counted, 4 at most. */
struct sc16is752_line {
    bool overrun;
    uint8_t quiet;
};

/* The transmit shift register. */
struct sc16is752_shift {
    bool full;
    uint8_t byte;
};

/* The pins as they stand, and MSR 3:0, what changed of them since MSR was read; both as pin values. */
struct sc16is752_modem {
    uint8_t pins;
    uint8_t changes;
};

struct sc16is752_flags {
    bool special;
    bool cts;
    bool rts;
    bool thr;
};

/* Xon and Xoff. */
struct sc16is752_flow {
    bool stopped; /* by Xoff: no slot loads from the queue; also the Xoff flag */
    bool latch;   /* the second latch, true for on */
    bool waits;   /* a flow character waits to be sent */
    uint8_t byte; /* the one that waits, 0 where none does */
};

/* The lines of a channel: all that it keeps beside its stored registers and its queues. */
struct sc16is752_state {
    struct sc16is752_line line;
    struct sc16is752_shift shift;
    struct sc16is752_modem modem;
    struct sc16is752_flags flags;
    bool latch; /* auto-RTS, true for asserted */
    struct sc16is752_flow flow;
};

struct sc16is752_channel {
    struct sc16is752_settings settings;
    struct sc16is752_state state;
    struct sc16is752_queue rx;
    struct sc16is752_queue tx;
};

/* A chip: channel 0 is a, channel 1 is b. */
struct sc16is752 {
    struct sc16is752_channel a;
    struct sc16is752_channel b;
};

/* Makes the record a new chip's: a reset one, with every byte that a reset keeps and the pins 0. */
void sc16is752_new(struct sc16is752 *chip);

/* One event, by its kind and operands in the order of the table below; operands that the kind lacks are not looked at.
 * Answers the reply, or SC16IS752_REFUSED plus the refusal number; a refused event leaves the record as it was. */
uint32_t sc16is752_step(struct sc16is752 *chip, uint64_t kind, uint64_t x, uint64_t y, uint64_t z);

/* Empties a receive queue at one go: reads of RHR go to the front of buffer until there are length of them, or as many as
 * most says, or the queue is empty. Answers how many; the bytes behind them stay as they were. The record then is the one
 * after as many steps SC16IS752_READ of SC16IS752_RHR, each an event of the channel. With LCR bit 7 set, or a channel above
 * 1, there are none; where there are none nothing changes, not even the quiet count. channel and most may be any numbers.
 *
 * The characters come without their marks, so a damaged one looks like any other. Look at LSR right before the call: with
 * SC16IS752_LSR_ERROR clear, no queued character has a mark. With it set, take them by single reads, LSR before each RHR.
 * The same look shows SC16IS752_LSR_OVERRUN, that a character was lost, and clears it. Where a character may arrive between
 * that look and the call, let most be RXLVL, read before LSR. */
size_t sc16is752_drain(struct sc16is752 *chip, uint64_t channel, uint64_t most, uint8_t *buffer, size_t length);

/* Writes an event of an event file: its bytes are put at the start of bytes, if there is room for them, and what is behind
 * them stays as it was. Answers their count, or 0 if there is no room, or SC16IS752_REFUSED plus the refusal number; with
 * these two bytes stays as it was. Put one behind the other, such bytes are a file that the bench program runs. It is in an
 * archive of its own, libsc16is752_file.a. */
uint32_t sc16is752_event_bytes(uint64_t kind, uint64_t x, uint64_t y, uint64_t z, uint8_t *bytes, size_t length);

/* The most bytes that an event takes, and that an event file may have. */
enum {
    SC16IS752_LONGEST_EVENT = 5,
    SC16IS752_LONGEST_FILE = 65536
};

/* Kinds. Operands and reply stand beside each. */
enum {
    SC16IS752_WRITE = 0,    /* channel, address, byte: 0 */
    SC16IS752_READ = 1,     /* channel, address: the byte */
    SC16IS752_ARRIVAL = 2,  /* channel, byte, mark: the fate */
    SC16IS752_SLOT = 3,     /* channel: the character that left, or SC16IS752_NO_CHARACTER */
    SC16IS752_PINS = 4,     /* channel, value: 0 */
    SC16IS752_QUIET = 5,    /* channel: 0 */
    SC16IS752_RESET = 6,    /* none: 0 */
    SC16IS752_IRQ_LOOK = 7, /* none: 1 if either channel has an interrupt pending, else 0 */
    SC16IS752_RTS_LOOK = 8  /* channel: 1 if asserted, else 0 */
};

/* Answers from here on are refusals. */
enum {
    SC16IS752_NO_CHARACTER = 256,
    SC16IS752_REFUSED = 512
};

/* Refusal numbers. A step and the writer know 3 to 8; the others are met where a file is read. */
enum {
    SC16IS752_REFUSED_NUMBER = 1,
    SC16IS752_REFUSED_SHORT = 2,
    SC16IS752_REFUSED_KIND = 3,
    SC16IS752_REFUSED_CHANNEL = 4,
    SC16IS752_REFUSED_ADDRESS = 5,
    SC16IS752_REFUSED_BYTE = 6,
    SC16IS752_REFUSED_MARK = 7,
    SC16IS752_REFUSED_PINS = 8,
    SC16IS752_REFUSED_LONG = 9
};

/* Marks of an arrival; sums are allowed. */
enum {
    SC16IS752_MARK_PARITY = 1,
    SC16IS752_MARK_NINTH = 1, /* in 9-bit mode */
    SC16IS752_MARK_FRAMING = 2,
    SC16IS752_MARK_BREAK = 4
};

/* Fates of an arrival. */
enum {
    SC16IS752_KEPT = 0,
    SC16IS752_LOST = 1,               /* for want of room */
    SC16IS752_DROPPED_DISABLED = 2,   /* by a disabled receiver */
    SC16IS752_DROPPED_BY_ADDRESS = 3,
    SC16IS752_TAKEN = 4               /* as Xon or Xoff */
};

/* Pin values; a one means asserted. */
enum {
    SC16IS752_PIN_CTS = 1,
    SC16IS752_PIN_DSR = 2,
    SC16IS752_PIN_RI = 4,
    SC16IS752_PIN_CD = 8
};

/* Addresses: LCR is always open. */
enum {
    SC16IS752_LCR = 0x3
};

/* Addresses: the general set, open with LCR bit 7 clear. */
enum {
    SC16IS752_RHR = 0x0, /* read */
    SC16IS752_THR = 0x0, /* write */
    SC16IS752_IER = 0x1,
    SC16IS752_IIR = 0x2, /* read */
    SC16IS752_FCR = 0x2, /* write */
    SC16IS752_MCR = 0x4,
    SC16IS752_LSR = 0x5,
    SC16IS752_MSR = 0x6,
    SC16IS752_SPR = 0x7,
    SC16IS752_TCR = 0x6, /* with EFR bit 4 and MCR bit 2 both set */
    SC16IS752_TLR = 0x7, /* with EFR bit 4 and MCR bit 2 both set */
    SC16IS752_TXLVL = 0x8,
    SC16IS752_RXLVL = 0x9,
    SC16IS752_IOCONTROL = 0xE,
    SC16IS752_EFCR = 0xF
};

/* Addresses: the enhanced set, open with LCR = SC16IS752_LCR_ENHANCED. */
enum {
    SC16IS752_EFR = 0x2,
    SC16IS752_XON1 = 0x4,
    SC16IS752_XON2 = 0x5,
    SC16IS752_XOFF1 = 0x6,
    SC16IS752_XOFF2 = 0x7
};

/* Addresses: the divisor, open with LCR bit 7 set and LCR not SC16IS752_LCR_ENHANCED. */
enum {
    SC16IS752_DLL = 0x0,
    SC16IS752_DLH = 0x1
};

/* LCR: the word length, the divisor's window, and the value that opens the enhanced set. */
enum {
    SC16IS752_LCR_WORD_5 = 0x00,
    SC16IS752_LCR_WORD_6 = 0x01,
    SC16IS752_LCR_WORD_7 = 0x02,
    SC16IS752_LCR_WORD_8 = 0x03,
    SC16IS752_LCR_DIVISOR = 0x80,
    SC16IS752_LCR_ENHANCED = 0xBF,
    SC16IS752_LCR_AFTER_RESET = 0x1D
};

/* IER. */
enum {
    SC16IS752_IER_RHR = 0x01,
    SC16IS752_IER_THR = 0x02,
    SC16IS752_IER_LINE = 0x04,
    SC16IS752_IER_MODEM = 0x08,
    SC16IS752_IER_SLEEP = 0x10,
    SC16IS752_IER_SPECIAL = 0x20, /* a special match or Xoff */
    SC16IS752_IER_RTS = 0x40,
    SC16IS752_IER_CTS = 0x80
};

/* FCR. The levels, by bits 5:4 and 7:6, are 8, 16, 32, 56 spaces and 8, 16, 56, 60 characters. */
enum {
    SC16IS752_FCR_FIFO = 0x01,
    SC16IS752_FCR_CLEAR_RX = 0x02,
    SC16IS752_FCR_CLEAR_TX = 0x04,
    SC16IS752_FCR_TX_16 = 0x10,
    SC16IS752_FCR_TX_32 = 0x20,
    SC16IS752_FCR_TX_56 = 0x30,
    SC16IS752_FCR_RX_16 = 0x40,
    SC16IS752_FCR_RX_56 = 0x80,
    SC16IS752_FCR_RX_60 = 0xC0
};

/* MCR. */
enum {
    SC16IS752_MCR_RTS = 0x02,
    SC16IS752_MCR_TCR_TLR = 0x04,
    SC16IS752_MCR_XON_ANY = 0x20 /* any other passing character resumes as Xon does */
};

/* LSR. Bits 4:2 are the marks of the oldest character. */
enum {
    SC16IS752_LSR_READY = 0x01,
    SC16IS752_LSR_OVERRUN = 0x02,
    SC16IS752_LSR_PARITY = 0x04,
    SC16IS752_LSR_FRAMING = 0x08,
    SC16IS752_LSR_BREAK = 0x10,
    SC16IS752_LSR_TX_EMPTY = 0x20,
    SC16IS752_LSR_IDLE = 0x40, /* transmit queue and shift register empty, and nothing waits */
    SC16IS752_LSR_ERROR = 0x80
};

/* MSR. The low four are set by any change of the same pin, RI's only by RI going off, and cleared by a read. */
enum {
    SC16IS752_MSR_CTS_CHANGED = 0x01,
    SC16IS752_MSR_DSR_CHANGED = 0x02,
    SC16IS752_MSR_RI_CHANGED = 0x04,
    SC16IS752_MSR_CD_CHANGED = 0x08,
    SC16IS752_MSR_CTS = 0x10,
    SC16IS752_MSR_DSR = 0x20,
    SC16IS752_MSR_RI = 0x40,
    SC16IS752_MSR_CD = 0x80
};

/* EFCR. */
enum {
    SC16IS752_EFCR_NINE_BIT = 0x01,
    SC16IS752_EFCR_RX_OFF = 0x02,
    SC16IS752_EFCR_TX_OFF = 0x04,
    SC16IS752_EFCR_RTS_SENDING = 0x10,
    SC16IS752_EFCR_RTS_INVERTED = 0x20
};

/* EFR. The pair of XON and XOFF that arrivals are compared with, and the pair that is sent: one of each or none, for with
 * both bits of a choice set nothing is compared or sent. */
enum {
    SC16IS752_EFR_RX_PAIR_2 = 0x01,
    SC16IS752_EFR_RX_PAIR_1 = 0x02,
    SC16IS752_EFR_TX_PAIR_2 = 0x04,
    SC16IS752_EFR_TX_PAIR_1 = 0x08,
    SC16IS752_EFR_ENHANCED = 0x10,
    SC16IS752_EFR_SPECIAL = 0x20,
    SC16IS752_EFR_AUTO_RTS = 0x40,
    SC16IS752_EFR_AUTO_CTS = 0x80
};

/* IOControl: a write with this bit resets the chip. */
enum {
    SC16IS752_IOCONTROL_RESET = 0x08
};

/* IIR: these two bits with FCR bit 0 set, plus one of the interrupt codes, highest first. */
enum {
    SC16IS752_IIR_FIFO = 0xC0,
    SC16IS752_INTERRUPT_LINE = 0x06,
    SC16IS752_INTERRUPT_TIMEOUT = 0x0C,
    SC16IS752_INTERRUPT_RHR = 0x04,
    SC16IS752_INTERRUPT_THR = 0x02,
    SC16IS752_INTERRUPT_MODEM = 0x00,
    SC16IS752_INTERRUPT_SPECIAL = 0x10, /* the special flag or the Xoff flag */
    SC16IS752_INTERRUPT_CTS_RTS = 0x20,
    SC16IS752_INTERRUPT_NONE = 0x01
};

#ifdef __cplusplus
}
#endif

#endif
