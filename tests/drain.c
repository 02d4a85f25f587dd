/* Request 03 of document 02, a receive queue emptied at one go, through the C interface: each sentence on both of its sides.
 * Beside the chip that is drained a second one takes the same events and reads RHR singly, and after each drain the two have
 * to be the same, byte for byte. Silent where all is as expected.
 */
#include "sc16is752.h"

#include <stdio.h>
#include <string.h>

/* The longest buffer, and what lies on both sides of one: more than a whole queue. */
enum {
    LONGEST = 264,
    AROUND = 80
};

#define COUNT(array) (sizeof(array) / sizeof(array)[0])

static struct sc16is752 chip, single;

/* What each channel has kept and nobody has taken, from first to behind; both go round. */
static struct unread {
    uint8_t bytes[256];
    uint8_t first, behind;
} unread[2];

static int wrong;

static void expect(int line, const char *what, unsigned long long expected, unsigned long long given)
{
    if (given != expected) {
        printf("line %d: %s: %llu expected, %llu given\n", line, what, expected, given);
        wrong = 1;
    }
}

static void step(int line, uint64_t kind, uint64_t x, uint64_t y, uint64_t z, uint32_t expected)
{
    sc16is752_step(&single, kind, x, y, z);
    uint32_t given = sc16is752_step(&chip, kind, x, y, z);
    if (given != expected) {
        printf("line %d: kind %llu: %u expected, %u given\n", line, (unsigned long long)kind, (unsigned)expected,
            (unsigned)given);
        wrong = 1;
    }
}

static void arrive(int line, uint64_t channel, uint8_t byte, unsigned mark, uint32_t fate)
{
    struct unread *u = &unread[channel];
    step(line, SC16IS752_ARRIVAL, channel, byte, mark, fate);
    if (fate == SC16IS752_KEPT)
        u->bytes[u->behind++] = mark & SC16IS752_MARK_BREAK ? 0 : byte;
}

static void fill(int line, uint64_t channel, size_t count)
{
    static uint8_t byte = 0x40;
    for (size_t i = 0; i < count; i++)
        arrive(line, channel, byte++, 0, SC16IS752_KEPT);
}

static uint8_t next_unread(uint64_t channel)
{
    struct unread *u = &unread[channel];
    return u->bytes[u->first++];
}

/* A drain, after which the front of the buffer must be these bytes and the chip as the other one is, which was read singly.
 * After one that is wrong the chip goes on as the other one is. */
static void drained(int line, uint64_t channel, uint64_t most, size_t length, const uint8_t *bytes, size_t count)
{
    uint8_t buffer[AROUND + LONGEST + AROUND], expected[sizeof buffer];
    memset(buffer, 0xA5, sizeof buffer);
    memset(expected, 0xA5, sizeof expected);
    memcpy(expected + AROUND, bytes, count);

    size_t given = sc16is752_drain(&chip, channel, most, buffer + AROUND, length);
    int buffers = memcmp(buffer, expected, sizeof buffer), records = memcmp(&chip, &single, sizeof chip);
    if (given != count || buffers != 0 || records != 0) {
        printf("line %d: drain of channel %llu, %llu at most, into %zu bytes: %zu expected, %zu given%s%s\n", line,
            (unsigned long long)channel, (unsigned long long)most, length, count, given,
            buffers != 0 ? ", another buffer" : "", records != 0 ? ", another record" : "");
        chip = single;
        wrong = 1;
    }
}

/* A drain that must come to so many reads. */
static void drain(int line, uint64_t channel, uint64_t most, size_t length, size_t count)
{
    uint8_t bytes[LONGEST];
    for (size_t i = 0; i < count; i++) {
        bytes[i] = next_unread(channel);
        expect(line, "a single read", bytes[i], sc16is752_step(&single, SC16IS752_READ, channel, SC16IS752_RHR, 0));
    }
    drained(line, channel, most, length, bytes, count);
}

#define EXPECT(expected, given) expect(__LINE__, #given, expected, given)
#define STEP(kind, x, answer) step(__LINE__, kind, x, 0, 0, answer)
#define WRITE(channel, address, byte) step(__LINE__, SC16IS752_WRITE, channel, address, byte, 0)
#define READ(channel, address, byte) step(__LINE__, SC16IS752_READ, channel, address, 0, byte)
#define READ_RHR(channel) READ(channel, SC16IS752_RHR, next_unread(channel))
#define ARRIVE(channel, byte, mark, fate) arrive(__LINE__, channel, byte, mark, fate)
#define FILL(channel, count) fill(__LINE__, channel, count)
#define DRAIN(channel, most, length, count) drain(__LINE__, channel, most, length, count)
#define QUIET(channel, times) for (int i = 0; i < (times); i++) STEP(SC16IS752_QUIET, channel, 0)

/* A new chip, both channels with eight bits, their queues on and a receive level of 8. */
static void begin(void)
{
    chip = (struct sc16is752){0};
    sc16is752_new(&chip);
    single = chip;
    memset(unread, 0, sizeof unread);
    for (uint64_t channel = 0; channel < 2; channel++) {
        WRITE(channel, SC16IS752_LCR, SC16IS752_LCR_WORD_8);
        WRITE(channel, SC16IS752_FCR, SC16IS752_FCR_FIFO);
    }
}

/* "up to a stated number of times, until the queue is empty or the buffer full": each of the three below the other two, the
 * same as them, and above. What is left is there for the next call. */
static void limits(void)
{
    static const size_t queues[] = {0, 1, 7, 8, 9, 63, 64};
    static const size_t lengths[] = {0, 1, 7, 8, 9, 63, 64, 65, 256, LONGEST};
    static const uint64_t mosts[] = {0, 1, 7, 8, 9, 63, 64, 65, 255, 256, 264, 65536, UINT32_MAX, UINT64_C(1) << 32,
        (UINT64_C(1) << 32) + 8, INT64_MAX, UINT64_C(1) << 63, (UINT64_C(1) << 63) + 8, UINT64_MAX};
    for (uint64_t channel = 0; channel < 2; channel++)
        for (size_t q = 0; q < COUNT(queues); q++)
            for (size_t l = 0; l < COUNT(lengths); l++)
                for (size_t m = 0; m < COUNT(mosts); m++) {
                    size_t count = queues[q] < lengths[l] ? queues[q] : lengths[l];
                    if (mosts[m] < count)
                        count = (size_t)mosts[m];
                    begin();
                    FILL(channel, queues[q]);
                    DRAIN(channel, mosts[m], lengths[l], count);
                    READ(channel, SC16IS752_RXLVL, (uint32_t)(queues[q] - count));
                    DRAIN(channel, UINT64_MAX, LONGEST, queues[q] - count);
                }
}

/* "a channel above 1" is none, by all its bits; a drain leaves the other channel as it was, its queue and its window too. */
static void channels(void)
{
    static const uint64_t none[] = {2, 3, 255, 256, 257, 65536, 65537, UINT64_C(1) << 32, (UINT64_C(1) << 32) + 1,
        UINT64_C(1) << 63, (UINT64_C(1) << 63) + 1, UINT64_MAX - 1, UINT64_MAX};
    begin();
    FILL(0, 5);
    FILL(1, 9);
    for (size_t i = 0; i < COUNT(none); i++)
        DRAIN(none[i], UINT64_MAX, LONGEST, 0);
    READ(0, SC16IS752_RXLVL, 5);
    READ(1, SC16IS752_RXLVL, 9);

    struct sc16is752 before = chip;
    DRAIN(1, 4, LONGEST, 4);
    EXPECT(0, memcmp(&chip.a, &before.a, sizeof chip.a) != 0);
    before = chip;
    DRAIN(0, UINT64_MAX, LONGEST, 5);
    EXPECT(0, memcmp(&chip.b, &before.b, sizeof chip.b) != 0);
    DRAIN(0, UINT64_MAX, LONGEST, 0);
    DRAIN(1, UINT64_MAX, LONGEST, 5);
}

/* "With LCR 7 set .. the part is empty and nothing changes": whatever the other bits, and of its own channel alone. */
static void windows(void)
{
    static const uint8_t closed[] = {0x80, 0x83, 0x9D, SC16IS752_LCR_ENHANCED, 0xFF};
    static const uint8_t open[] = {0x00, 0x03, SC16IS752_LCR_AFTER_RESET, 0x3F, 0x7F};
    for (uint64_t channel = 0; channel < 2; channel++) {
        uint64_t other = 1 - channel;
        for (size_t i = 0; i < COUNT(closed); i++) {
            begin();
            FILL(channel, 3);
            FILL(other, 3);
            WRITE(channel, SC16IS752_LCR, closed[i]);
            DRAIN(channel, UINT64_MAX, LONGEST, 0);
            DRAIN(other, UINT64_MAX, LONGEST, 3);
            WRITE(channel, SC16IS752_LCR, SC16IS752_LCR_WORD_8);
            READ(channel, SC16IS752_RXLVL, 3);
            DRAIN(channel, UINT64_MAX, LONGEST, 3);
        }
        for (size_t i = 0; i < COUNT(open); i++) {
            begin();
            FILL(channel, 3);
            WRITE(channel, SC16IS752_LCR, open[i]);
            DRAIN(channel, UINT64_MAX, LONGEST, 3);
        }
    }

    /* TCR and TLR in their window close no RHR, and a disabled receiver gives what it has. */
    begin();
    FILL(0, 3);
    WRITE(0, SC16IS752_LCR, SC16IS752_LCR_ENHANCED);
    WRITE(0, SC16IS752_EFR, SC16IS752_EFR_ENHANCED);
    WRITE(0, SC16IS752_LCR, SC16IS752_LCR_WORD_8);
    WRITE(0, SC16IS752_MCR, SC16IS752_MCR_TCR_TLR);
    DRAIN(0, 1, LONGEST, 1);
    WRITE(0, SC16IS752_EFCR, SC16IS752_EFCR_RX_OFF);
    DRAIN(0, UINT64_MAX, LONGEST, 2);
}

/* Where nothing is taken "nothing changes", of all that a read of some register would clear. */
static void nothing(void)
{
    begin();
    for (uint64_t channel = 0; channel < 2; channel++) {
        WRITE(channel, SC16IS752_IER, SC16IS752_IER_THR);
        FILL(channel, 64);
        ARRIVE(channel, 0x21, 0, SC16IS752_LOST);
        step(__LINE__, SC16IS752_PINS, channel, SC16IS752_PIN_CTS, 0, 0);
    }
    WRITE(1, SC16IS752_FCR, SC16IS752_FCR_FIFO | SC16IS752_FCR_CLEAR_RX);
    QUIET(0, 3);
    QUIET(1, 3);

    struct sc16is752 before = chip;
    DRAIN(0, 0, LONGEST, 0);
    DRAIN(0, UINT64_MAX, 0, 0);
    DRAIN(1, UINT64_MAX, LONGEST, 0);
    DRAIN(2, UINT64_MAX, LONGEST, 0);
    EXPECT(0, memcmp(&chip, &before, sizeof chip) != 0);
    WRITE(0, SC16IS752_LCR, SC16IS752_LCR_ENHANCED);
    before = chip;
    DRAIN(0, UINT64_MAX, LONGEST, 0);
    EXPECT(0, memcmp(&chip, &before, sizeof chip) != 0);
}

/* A drain makes the quiet count 0, as "an RHR read" does, and so ends the timeout interrupt; one of none does neither. */
static void quiet(void)
{
    const uint32_t timeout = SC16IS752_IIR_FIFO | SC16IS752_INTERRUPT_TIMEOUT;
    const uint32_t none = SC16IS752_IIR_FIFO | SC16IS752_INTERRUPT_NONE;
    begin();
    WRITE(0, SC16IS752_IER, SC16IS752_IER_RHR);
    FILL(0, 3);
    FILL(1, 3);
    QUIET(0, 4);
    DRAIN(0, 0, LONGEST, 0);
    DRAIN(0, UINT64_MAX, 0, 0);
    DRAIN(1, UINT64_MAX, LONGEST, 3);
    DRAIN(2, UINT64_MAX, LONGEST, 0);
    WRITE(0, SC16IS752_LCR, SC16IS752_LCR_ENHANCED);
    DRAIN(0, UINT64_MAX, LONGEST, 0);
    WRITE(0, SC16IS752_LCR, SC16IS752_LCR_WORD_8);
    READ(0, SC16IS752_IIR, timeout);
    DRAIN(0, 1, LONGEST, 1);
    READ(0, SC16IS752_IIR, none);
    QUIET(0, 3);
    READ(0, SC16IS752_IIR, none);
    DRAIN(0, 0, 0, 0);
    QUIET(0, 1);
    READ(0, SC16IS752_IIR, timeout);
    DRAIN(0, UINT64_MAX, LONGEST, 2);
    STEP(SC16IS752_IRQ_LOOK, 0, 0);
    READ(0, SC16IS752_IIR, none);

    /* "none of an empty queue": a single read of it would make the count 0 too. */
    QUIET(0, 3);
    DRAIN(0, UINT64_MAX, LONGEST, 0);
    EXPECT(3, chip.a.state.line.quiet);
    READ(0, SC16IS752_RHR, 0);
    EXPECT(0, chip.a.state.line.quiet);
}

/* LSR before and after: the marks of the oldest that is left, bit 7 of all that are, and the overrun that stays. */
static void status(void)
{
    const uint8_t sent = SC16IS752_LSR_TX_EMPTY | SC16IS752_LSR_IDLE, ready = sent | SC16IS752_LSR_READY;
    for (int singly = 0; singly < 2; singly++) {
        begin();
        WRITE(0, SC16IS752_IER, SC16IS752_IER_LINE);
        ARRIVE(0, 0x41, 0, SC16IS752_KEPT);
        ARRIVE(0, 0x42, SC16IS752_MARK_PARITY, SC16IS752_KEPT);
        ARRIVE(0, 0x43, 0, SC16IS752_KEPT);
        ARRIVE(0, 0x44, SC16IS752_MARK_FRAMING | SC16IS752_MARK_BREAK, SC16IS752_KEPT);
        ARRIVE(0, 0x45, 0, SC16IS752_KEPT);
        READ(0, SC16IS752_LSR, ready | SC16IS752_LSR_ERROR);
        if (singly) {
            DRAIN(0, 1, LONGEST, 1);
            READ(0, SC16IS752_LSR, ready | SC16IS752_LSR_ERROR | SC16IS752_LSR_PARITY);
            DRAIN(0, 1, LONGEST, 1);
            READ(0, SC16IS752_LSR, ready | SC16IS752_LSR_ERROR);
            DRAIN(0, 1, LONGEST, 1);
        } else
            DRAIN(0, UINT64_MAX, 3, 3);
        READ(0, SC16IS752_LSR, ready | SC16IS752_LSR_ERROR | SC16IS752_LSR_FRAMING | SC16IS752_LSR_BREAK);
        READ(0, SC16IS752_IIR, SC16IS752_IIR_FIFO | SC16IS752_INTERRUPT_LINE);
        DRAIN(0, 1, LONGEST, 1);
        READ(0, SC16IS752_LSR, ready);
        READ(0, SC16IS752_IIR, SC16IS752_IIR_FIFO | SC16IS752_INTERRUPT_NONE);
        DRAIN(0, 1, LONGEST, 1);
        READ(0, SC16IS752_LSR, sent);
    }

    begin();
    WRITE(0, SC16IS752_IER, SC16IS752_IER_LINE);
    FILL(0, 64);
    ARRIVE(0, 0x21, SC16IS752_MARK_PARITY, SC16IS752_LOST);
    DRAIN(0, 10, LONGEST, 10);
    READ(0, SC16IS752_IIR, SC16IS752_IIR_FIFO | SC16IS752_INTERRUPT_LINE);
    READ(0, SC16IS752_LSR, ready | SC16IS752_LSR_OVERRUN);
    READ(0, SC16IS752_LSR, ready);
    FILL(0, 10);
    ARRIVE(0, 0x22, 0, SC16IS752_LOST);
    DRAIN(0, UINT64_MAX, LONGEST, 64);
    READ(0, SC16IS752_LSR, sent | SC16IS752_LSR_OVERRUN);
    READ(0, SC16IS752_LSR, sent);
}

/* The receive interrupt goes by what is left. What is sent stays as it is, and so does the THR flag that IIR has shown. */
static void interrupts(void)
{
    begin();
    WRITE(0, SC16IS752_IER, SC16IS752_IER_RHR);
    FILL(0, 9);
    DRAIN(0, 1, LONGEST, 1);
    READ(0, SC16IS752_IIR, SC16IS752_IIR_FIFO | SC16IS752_INTERRUPT_RHR);
    DRAIN(0, 0, LONGEST, 0);
    READ(0, SC16IS752_IIR, SC16IS752_IIR_FIFO | SC16IS752_INTERRUPT_RHR);
    DRAIN(0, 1, LONGEST, 1);
    READ(0, SC16IS752_IIR, SC16IS752_IIR_FIFO | SC16IS752_INTERRUPT_NONE);

    WRITE(0, SC16IS752_IER, SC16IS752_IER_THR);
    WRITE(0, SC16IS752_THR, 0x51);
    WRITE(0, SC16IS752_THR, 0x52);
    READ(0, SC16IS752_IIR, SC16IS752_IIR_FIFO | SC16IS752_INTERRUPT_THR);
    DRAIN(0, UINT64_MAX, LONGEST, 7);
    READ(0, SC16IS752_IIR, SC16IS752_IIR_FIFO | SC16IS752_INTERRUPT_NONE);
    READ(0, SC16IS752_TXLVL, 62);
    STEP(SC16IS752_SLOT, 0, SC16IS752_NO_CHARACTER);
    STEP(SC16IS752_SLOT, 0, 0x51);
    STEP(SC16IS752_SLOT, 0, 0x52);
}

/* EFR as given, and a halt of 8 and a resume of 4. */
static void begin_flow(uint8_t efr)
{
    begin();
    WRITE(0, SC16IS752_LCR, SC16IS752_LCR_ENHANCED);
    WRITE(0, SC16IS752_EFR, efr | SC16IS752_EFR_ENHANCED);
    WRITE(0, SC16IS752_XON1, 0x11);
    WRITE(0, SC16IS752_XOFF1, 0x13);
    WRITE(0, SC16IS752_LCR, SC16IS752_LCR_WORD_8);
    WRITE(0, SC16IS752_MCR, SC16IS752_MCR_TCR_TLR);
    WRITE(0, SC16IS752_TCR, 0x12);
}

/* A drain to the resume level asserts RTS again, as does one far past it; none sets the RTS flag, and none clears it. */
static void auto_rts(void)
{
    const uint32_t turned = SC16IS752_IIR_FIFO | SC16IS752_INTERRUPT_CTS_RTS;
    const uint32_t none = SC16IS752_IIR_FIFO | SC16IS752_INTERRUPT_NONE;
    begin_flow(SC16IS752_EFR_AUTO_RTS);
    WRITE(0, SC16IS752_IER, SC16IS752_IER_RTS);
    FILL(0, 7);
    STEP(SC16IS752_RTS_LOOK, 0, 1);
    FILL(0, 1);
    STEP(SC16IS752_RTS_LOOK, 0, 0);
    READ(0, SC16IS752_IIR, turned);
    DRAIN(0, 0, LONGEST, 0);
    DRAIN(0, 3, LONGEST, 3);
    STEP(SC16IS752_RTS_LOOK, 0, 0);
    DRAIN(0, 1, LONGEST, 1);
    STEP(SC16IS752_RTS_LOOK, 0, 1);
    READ(0, SC16IS752_IIR, none);
    FILL(0, 4);
    STEP(SC16IS752_RTS_LOOK, 0, 0);
    DRAIN(0, UINT64_MAX, LONGEST, 8);
    STEP(SC16IS752_RTS_LOOK, 0, 1);
    READ(0, SC16IS752_IIR, turned);
    READ(0, SC16IS752_IIR, none);

    /* "if TCR is 0, halt is the FCR 7:6 level and resume 0": the queue's last character counts. */
    WRITE(0, SC16IS752_TCR, 0);
    FILL(0, 8);
    DRAIN(0, UINT64_MAX, 7, 7);
    STEP(SC16IS752_RTS_LOOK, 0, 0);
    DRAIN(0, UINT64_MAX, 7, 1);
    STEP(SC16IS752_RTS_LOOK, 0, 1);
}

/* A drain to the resume level lets one Xon wait, in the place of an Xoff that is not yet sent. */
static void xon(void)
{
    const uint8_t idle = SC16IS752_LSR_READY | SC16IS752_LSR_TX_EMPTY | SC16IS752_LSR_IDLE;
    const uint8_t waits = SC16IS752_LSR_READY | SC16IS752_LSR_TX_EMPTY;
    begin_flow(SC16IS752_EFR_TX_PAIR_1);
    FILL(0, 8);
    READ(0, SC16IS752_LSR, waits);
    STEP(SC16IS752_SLOT, 0, SC16IS752_NO_CHARACTER);
    STEP(SC16IS752_SLOT, 0, 0x13);
    DRAIN(0, 3, LONGEST, 3);
    DRAIN(0, UINT64_MAX, 0, 0);
    READ(0, SC16IS752_LSR, idle);
    DRAIN(0, 1, LONGEST, 1);
    READ(0, SC16IS752_LSR, waits);
    STEP(SC16IS752_SLOT, 0, SC16IS752_NO_CHARACTER);
    STEP(SC16IS752_SLOT, 0, 0x11);
    FILL(0, 4);
    DRAIN(0, UINT64_MAX, LONGEST, 8);
    STEP(SC16IS752_SLOT, 0, SC16IS752_NO_CHARACTER);
    STEP(SC16IS752_SLOT, 0, 0x11);
    STEP(SC16IS752_SLOT, 0, SC16IS752_NO_CHARACTER);
}

static void one_place(void)
{
    begin();
    WRITE(0, SC16IS752_FCR, 0);
    WRITE(0, SC16IS752_IER, SC16IS752_IER_RHR);
    for (int i = 0; i < 2; i++) {
        FILL(0, 1);
        ARRIVE(0, 0x21, 0, SC16IS752_LOST);
        READ(0, SC16IS752_IIR, SC16IS752_INTERRUPT_RHR);
        DRAIN(0, UINT64_MAX, LONGEST, 1);
        READ(0, SC16IS752_IIR, SC16IS752_INTERRUPT_NONE);
        DRAIN(0, UINT64_MAX, LONGEST, 0);
    }
}

/* Full drains from every place of the queue on, then drains, arrivals and single reads in turn. */
static void rounds(void)
{
    begin();
    for (int place = 0; place < 64; place++) {
        EXPECT((unsigned)place, chip.a.rx.start);
        FILL(0, 64);
        ARRIVE(0, 0x21, 0, SC16IS752_LOST);
        DRAIN(0, UINT64_MAX, 64, 64);
        FILL(0, 1);
        READ_RHR(0);
    }

    size_t queued = 0;
    for (size_t i = 0; i < 1000; i++) {
        size_t arrivals = i * 37 % 29, most = i * 29 % 31, length = i * 17 % 27;
        if (arrivals > 64 - queued)
            arrivals = 64 - queued;
        FILL(0, arrivals);
        queued += arrivals;
        size_t count = most < length ? most : length;
        if (queued < count)
            count = queued;
        DRAIN(0, most, length, count);
        queued -= count;
        if (i % 3 == 0 && queued > 0) {
            READ_RHR(0);
            queued--;
        }
        READ(0, SC16IS752_RXLVL, (uint32_t)queued);
    }
}

/* Nothing is left after a reset or a clear; after a reset RHR is open, with room for one. */
static void emptied(void)
{
    chip = (struct sc16is752){0};
    sc16is752_new(&chip);
    single = chip;
    DRAIN(0, UINT64_MAX, LONGEST, 0);

    for (int io_control = 0; io_control < 2; io_control++) {
        begin();
        FILL(0, 5);
        FILL(1, 6);
        WRITE(0, SC16IS752_LCR, SC16IS752_LCR_ENHANCED);
        if (io_control)
            WRITE(1, SC16IS752_IOCONTROL, SC16IS752_IOCONTROL_RESET);
        else
            STEP(SC16IS752_RESET, 0, 0);
        memset(unread, 0, sizeof unread);
        for (uint64_t channel = 0; channel < 2; channel++) {
            DRAIN(channel, UINT64_MAX, LONGEST, 0);
            ARRIVE(channel, 0x11, 0, SC16IS752_KEPT);
            ARRIVE(channel, 0x12, 0, SC16IS752_LOST);
            DRAIN(channel, UINT64_MAX, LONGEST, 1);
        }
    }

    begin();
    FILL(0, 5);
    WRITE(0, SC16IS752_FCR, SC16IS752_FCR_FIFO | SC16IS752_FCR_CLEAR_TX);
    DRAIN(0, 1, LONGEST, 1);
    WRITE(0, SC16IS752_FCR, SC16IS752_FCR_FIFO | SC16IS752_FCR_CLEAR_RX);
    memset(unread, 0, sizeof unread);
    DRAIN(0, UINT64_MAX, LONGEST, 0);
    FILL(0, 2);
    DRAIN(0, UINT64_MAX, LONGEST, 2);
}

/* Random numbers below a bound, the same on every machine. */
static uint64_t below(uint64_t bound)
{
    static uint64_t state = 1;
    state ^= state >> 12;
    state ^= state << 25;
    state ^= state >> 27;
    return (state * UINT64_C(0x2545F4914F6CDD1D) >> 33) % bound;
}

/* A byte that registers turn on: a single bit, a value of a window, any. */
static uint64_t some_byte(void)
{
    static const uint8_t values[] = {0x00, 0x01, 0x03, 0x10, 0x21, 0x41, SC16IS752_LCR_DIVISOR, SC16IS752_LCR_ENHANCED};
    switch (below(4)) {
    case 0:
        return UINT64_C(1) << below(8);
    case 1:
        return values[below(COUNT(values))];
    default:
        return below(256);
    }
}

static void random_event(void)
{
    uint64_t kind = below(16), x = below(2), y = below(16), z = some_byte();
    if (kind >= 9)
        kind = kind < 14 ? SC16IS752_ARRIVAL : SC16IS752_WRITE;
    if (kind == SC16IS752_ARRIVAL) {
        y = some_byte();
        z = below(8);
    }
    uint32_t expected = sc16is752_step(&single, kind, x, y, z);
    EXPECT(expected, sc16is752_step(&chip, kind, x, y, z));
}

/* How many reads it comes to is seen in the other record. */
static void random_drain(void)
{
    static const size_t lengths[] = {0, 1, 63, 64, 65, 256};
    static const uint64_t mosts[] = {0, 1, 64, UINT64_C(1) << 32, UINT64_MAX};
    static const uint64_t none[] = {2, 256, UINT64_C(1) << 32, UINT64_MAX};
    uint64_t channel = below(8) == 0 ? none[below(COUNT(none))] : below(2);
    uint64_t most = below(2) == 0 ? mosts[below(COUNT(mosts))] : below(70);
    size_t length = below(2) == 0 ? lengths[below(COUNT(lengths))] : (size_t)below(70);

    uint8_t bytes[LONGEST];
    size_t count = 0;
    const struct sc16is752_channel *from = channel == 0 ? &single.a : &single.b;
    if (channel < 2 && !(from->settings.lcr & SC16IS752_LCR_DIVISOR)) {
        count = from->rx.count < length ? from->rx.count : length;
        if (most < count)
            count = (size_t)most;
    }
    for (size_t i = 0; i < count; i++)
        bytes[i] = (uint8_t)sc16is752_step(&single, SC16IS752_READ, channel, SC16IS752_RHR, 0);
    drained(__LINE__, channel, most, length, bytes, count);
}

/* Events of every kind, and drains among them: rare in some histories, so that queues fill, and in some after each event. */
static void histories(void)
{
    for (int history = 0; history < 300; history++) {
        uint64_t between = UINT64_C(1) << below(8);
        begin();
        for (int i = 0; i < 2000; i++)
            if (below(between) == 0)
                random_drain();
            else
                random_event();
    }
}

int main(void)
{
    limits();
    channels();
    windows();
    nothing();
    quiet();
    status();
    interrupts();
    auto_rts();
    xon();
    one_place();
    rounds();
    emptied();
    histories();
    return wrong;
}
