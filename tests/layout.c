/* The header's record against the proved one: sizes, alignment and places when it is compiled, and when it is run that
 * each field is where the events put its value. It prints nothing and ends with 0.
 *
 *     cc -std=c11 -Iinclude tests/layout.c target/staticlib/libsc16is752.a -o layout
 */
#undef NDEBUG
#include "sc16is752.h"

#include <assert.h>
#include <stdalign.h>
#include <stddef.h>
#include <string.h>

#define SIZE(type, size) _Static_assert(sizeof(struct type) == (size) && alignof(struct type) == 1, #type)
#define AT(type, field, place) _Static_assert(offsetof(struct type, field) == (place), #field)

SIZE(sc16is752_settings, 15);
SIZE(sc16is752_queue, 130);
SIZE(sc16is752_line, 2);
SIZE(sc16is752_shift, 2);
SIZE(sc16is752_modem, 2);
SIZE(sc16is752_flags, 4);
SIZE(sc16is752_flow, 4);
SIZE(sc16is752_state, 15);
SIZE(sc16is752_channel, 290);
SIZE(sc16is752, 580);

AT(sc16is752_queue, marks, 64);
AT(sc16is752_queue, start, 128);
AT(sc16is752_queue, count, 129);
AT(sc16is752_channel, settings, 0);
AT(sc16is752_channel, state, 15);
AT(sc16is752_channel, rx, 30);
AT(sc16is752_channel, tx, 160);
AT(sc16is752_state, line, 0);
AT(sc16is752_state, shift, 2);
AT(sc16is752_state, modem, 4);
AT(sc16is752_state, flags, 6);
AT(sc16is752_state, latch, 10);
AT(sc16is752_state, flow, 11);
AT(sc16is752_flow, stopped, 0);
AT(sc16is752_flow, latch, 1);
AT(sc16is752_flow, waits, 2);
AT(sc16is752_flow, byte, 3);
AT(sc16is752, a, 0);
AT(sc16is752, b, 290);

static struct sc16is752 chip;

static void write_to(uint64_t channel, uint64_t address, uint64_t byte)
{
    assert(sc16is752_step(&chip, SC16IS752_WRITE, channel, address, byte) == 0);
}

/* Every stored register of channel b, a value of its own in each. */
static void settings(void)
{
    static const struct sc16is752_settings wanted = {
        .lcr = 0x03, .ier = 0xAF, .fcr = 0x61, .mcr = 0x26, .spr = 0x55, .efr = 0xDA, .efcr = 0x34, .tcr = 0x12,
        .tlr = 0x43, .dll = 0x71, .dlh = 0x72, .xon1 = 0x73, .xon2 = 0x74, .xoff1 = 0x75, .xoff2 = 0x76,
    };
    write_to(1, SC16IS752_LCR, SC16IS752_LCR_DIVISOR);
    write_to(1, SC16IS752_DLL, wanted.dll);
    write_to(1, SC16IS752_DLH, wanted.dlh);
    write_to(1, SC16IS752_LCR, SC16IS752_LCR_ENHANCED);
    write_to(1, SC16IS752_EFR, wanted.efr);
    write_to(1, SC16IS752_XON1, wanted.xon1);
    write_to(1, SC16IS752_XON2, wanted.xon2);
    write_to(1, SC16IS752_XOFF1, wanted.xoff1);
    write_to(1, SC16IS752_XOFF2, wanted.xoff2);
    write_to(1, SC16IS752_LCR, wanted.lcr);
    write_to(1, SC16IS752_SPR, wanted.spr);
    write_to(1, SC16IS752_IER, wanted.ier);
    write_to(1, SC16IS752_FCR, wanted.fcr);
    write_to(1, SC16IS752_MCR, wanted.mcr);
    write_to(1, SC16IS752_EFCR, wanted.efcr);
    write_to(1, SC16IS752_TCR, wanted.tcr);
    write_to(1, SC16IS752_TLR, wanted.tlr);
    assert(memcmp(&chip.b.settings, &wanted, sizeof wanted) == 0);
}

/* Both queues of channel a, its lines, shift register, pins and flags. */
static void lines(void)
{
    write_to(0, SC16IS752_LCR, SC16IS752_LCR_WORD_8);
    assert(sc16is752_step(&chip, SC16IS752_ARRIVAL, 0, 0x41, 0) == SC16IS752_KEPT);
    assert(sc16is752_step(&chip, SC16IS752_ARRIVAL, 0, 0x42, 0) == SC16IS752_LOST);
    assert(chip.a.state.line.overrun && chip.a.rx.count == 1);
    assert(sc16is752_step(&chip, SC16IS752_READ, 0, SC16IS752_RHR, 0) == 0x41);
    assert(sc16is752_step(&chip, SC16IS752_ARRIVAL, 0, 0x43, SC16IS752_MARK_FRAMING) == SC16IS752_KEPT);
    assert(chip.a.rx.start == 1 && chip.a.rx.count == 1 && chip.a.rx.bytes[1] == 0x43 && chip.a.rx.marks[1] == 2);

    assert(chip.a.state.flags.thr);
    write_to(0, SC16IS752_THR, 0x51);
    assert(!chip.a.state.flags.thr && chip.a.tx.count == 1 && chip.a.tx.bytes[0] == 0x51);
    assert(sc16is752_step(&chip, SC16IS752_SLOT, 0, 0, 0) == SC16IS752_NO_CHARACTER);
    assert(chip.a.state.shift.full && chip.a.state.shift.byte == 0x51 && chip.a.tx.count == 0 && chip.a.state.flags.thr);
    assert(sc16is752_step(&chip, SC16IS752_SLOT, 0, 0, 0) == 0x51);

    assert(sc16is752_step(&chip, SC16IS752_QUIET, 0, 0, 0) == 0 && chip.a.state.line.quiet == 1);
    assert(sc16is752_step(&chip, SC16IS752_PINS, 0, SC16IS752_PIN_CTS | SC16IS752_PIN_CD, 0) == 0);
    assert(sc16is752_step(&chip, SC16IS752_PINS, 0, SC16IS752_PIN_CD, 0) == 0);
    assert(chip.a.state.modem.pins == 8 && chip.a.state.modem.changes == 9 && chip.a.state.flags.cts);

    write_to(0, SC16IS752_MCR, SC16IS752_MCR_RTS);
    assert(!chip.a.state.flags.rts && sc16is752_step(&chip, SC16IS752_RTS_LOOK, 0, 0, 0) == 1);
    write_to(0, SC16IS752_MCR, 0);
    assert(chip.a.state.flags.rts && sc16is752_step(&chip, SC16IS752_RTS_LOOK, 0, 0, 0) == 0);

    write_to(0, SC16IS752_LCR, SC16IS752_LCR_ENHANCED);
    write_to(0, SC16IS752_EFR, SC16IS752_EFR_SPECIAL | SC16IS752_EFR_AUTO_RTS | SC16IS752_EFR_ENHANCED);
    write_to(0, SC16IS752_XOFF2, 0x44);
    write_to(0, SC16IS752_LCR, SC16IS752_LCR_WORD_8);
    assert(!chip.a.state.flags.special && chip.a.state.latch);
    assert(sc16is752_step(&chip, SC16IS752_ARRIVAL, 0, 0x44, 0) == SC16IS752_LOST && chip.a.state.flags.special);
    write_to(0, SC16IS752_FCR, SC16IS752_FCR_FIFO);
    for (unsigned i = 0; i < 8; i++)
        assert(sc16is752_step(&chip, SC16IS752_ARRIVAL, 0, i, 0) == SC16IS752_KEPT);
    assert(!chip.a.state.latch && chip.a.rx.count == 8);
}

/* Channel b as settings leaves it: the first pair compared and sent, halt 8 and resume 4. */
static void flow_control(void)
{
    const struct sc16is752_flow *flow = &chip.b.state.flow;
    assert(!flow->stopped && flow->latch && !flow->waits && flow->byte == 0);
    assert(sc16is752_step(&chip, SC16IS752_ARRIVAL, 1, 0x75, 0) == SC16IS752_TAKEN && flow->stopped);
    assert(sc16is752_step(&chip, SC16IS752_ARRIVAL, 1, 0x73, 0) == SC16IS752_TAKEN && !flow->stopped);
    for (unsigned i = 0; i < 8; i++)
        assert(flow->latch && sc16is752_step(&chip, SC16IS752_ARRIVAL, 1, i, 0) == SC16IS752_KEPT);
    assert(!flow->latch && flow->waits && flow->byte == 0x75);
    write_to(1, SC16IS752_EFCR, 0);
    assert(sc16is752_step(&chip, SC16IS752_SLOT, 1, 0, 0) == SC16IS752_NO_CHARACTER);
    assert(chip.b.state.shift.full && chip.b.state.shift.byte == 0x75 && !flow->waits && flow->byte == 0);
    for (unsigned i = 0; i < 4; i++)
        assert(!flow->latch && sc16is752_step(&chip, SC16IS752_READ, 1, SC16IS752_RHR, 0) == i);
    assert(flow->latch && flow->waits && flow->byte == 0x73);
}

int main(void)
{
    sc16is752_new(&chip);
    assert(chip.a.settings.lcr == SC16IS752_LCR_AFTER_RESET && chip.a.state.latch && chip.a.state.flags.thr);
    assert(memcmp(&chip.a, &chip.b, sizeof chip.a) == 0);
    settings();
    lines();
    flow_control();
    struct sc16is752 before = chip;
    assert(sc16is752_step(&chip, SC16IS752_READ, 2, 0, 0) == SC16IS752_REFUSED + SC16IS752_REFUSED_CHANNEL);
    assert(memcmp(&before, &chip, sizeof chip) == 0);
    return 0;
}
