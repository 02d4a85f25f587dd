/* A box that takes a whole meter telegram at one go, over the model of the chip.
 *
 *     tools/archives
 *     cc -std=c11 -Iinclude examples/telegram.c target/staticlib/libsc16is752.a -o telegram && ./telegram
 *
 * A meter sends its reading at 8N1, in fewer characters than the receive level. After four quiet character times the timeout
 * interrupt says that the telegram is there. What sc16is752_drain takes comes without error bits, so LSR is looked at first:
 * its bit 7 tells of a damaged character anywhere in the queue, and its bit 1 of one that was lost for want of room.
 */
#include "sc16is752.h"

#include <stdio.h>

enum {
    METERS = 0,
    DAMAGED = SC16IS752_LSR_PARITY | SC16IS752_LSR_FRAMING | SC16IS752_LSR_BREAK
};

static struct sc16is752 chip;

static uint8_t read_register(unsigned address)
{
    return (uint8_t)sc16is752_step(&chip, SC16IS752_READ, METERS, address, 0);
}

static void write_register(unsigned address, unsigned byte)
{
    sc16is752_step(&chip, SC16IS752_WRITE, METERS, address, byte);
}

static void box_starts(void)
{
    sc16is752_new(&chip);
    write_register(SC16IS752_LCR, SC16IS752_LCR_WORD_8);
    write_register(SC16IS752_FCR, SC16IS752_FCR_FIFO | SC16IS752_FCR_RX_56);
    write_register(SC16IS752_IER, SC16IS752_IER_RHR);
}

static void arrive(const char *characters, unsigned mark)
{
    for (; *characters != '\0'; characters++)
        sc16is752_step(&chip, SC16IS752_ARRIVAL, METERS, (uint8_t)*characters, mark);
}

static void line_falls_quiet(void)
{
    for (int i = 0; i < 4; i++)
        sc16is752_step(&chip, SC16IS752_QUIET, METERS, 0, 0);
}

static void take_at_one_go(uint8_t waiting)
{
    uint8_t telegram[64];
    size_t length = sc16is752_drain(&chip, METERS, waiting, telegram, sizeof telegram);
    printf("at one go:  ");
    fwrite(telegram, 1, length, stdout);
    printf("\n");
}

/* The first look has cleared the overrun bit, so it is told of here. */
static void take_one_by_one(uint8_t waiting, uint8_t first_look)
{
    printf("one by one: ");
    for (; waiting > 0; waiting--) {
        uint8_t status = read_register(SC16IS752_LSR);
        uint8_t character = read_register(SC16IS752_RHR);
        printf(status & DAMAGED ? "%c?" : "%c", character);
    }
    printf(first_look & SC16IS752_LSR_OVERRUN ? ".. refused\n" : " refused\n");
}

/* RXLVL is read before LSR, so that no character is taken that came after the look. */
static void box_looks(void)
{
    if (sc16is752_step(&chip, SC16IS752_IRQ_LOOK, 0, 0, 0) == 0)
        return;
    if (read_register(SC16IS752_IIR) != (SC16IS752_IIR_FIFO | SC16IS752_INTERRUPT_TIMEOUT))
        return;
    uint8_t waiting = read_register(SC16IS752_RXLVL);
    uint8_t status = read_register(SC16IS752_LSR);
    if (status & (SC16IS752_LSR_ERROR | SC16IS752_LSR_OVERRUN))
        take_one_by_one(waiting, status);
    else
        take_at_one_go(waiting);
}

int main(void)
{
    box_starts();
    arrive("1.8.0(004711*kWh)", 0);
    line_falls_quiet();
    box_looks();

    /* Without parity only the stop bit can tell: the 7 comes as a 5, and its stop bit is missing. */
    arrive("1.8.0(004", 0);
    arrive("5", SC16IS752_MARK_FRAMING);
    arrive("11*kWh)", 0);
    line_falls_quiet();
    box_looks();

    /* More than 64 characters before the box looks: the last ones are lost. */
    arrive("1.8.0(004711*kWh)2.8.0(000815*kWh)3.8.0(000042*kvarh)4.8.0(000007*kvarh)", 0);
    line_falls_quiet();
    box_looks();
    return 0;
}
