/* Two ways in which a box's code can read a meter telegram, over the model of the chip.
 *
 *     tools/archives
 *     cc -std=c11 -Iinclude examples/box.c target/staticlib/libsc16is752.a -o box && ./box
 *
 * A meter sends the reading 4711, and the 7 is damaged on the way: a 5 arrives, its parity wrong. LSR speaks of the oldest
 * character that is still queued, so it has to be read before the character is taken.
 */
#include "sc16is752.h"

#include <stdio.h>

enum { METERS = 0 };

static struct sc16is752 chip;

static uint8_t read_register(unsigned address)
{
    return (uint8_t)sc16is752_step(&chip, SC16IS752_READ, METERS, address, 0);
}

static void write_register(unsigned address, unsigned byte)
{
    sc16is752_step(&chip, SC16IS752_WRITE, METERS, address, byte);
}

/* What the line brings: good digits, and one damaged. */
static void telegram_arrives(void)
{
    sc16is752_step(&chip, SC16IS752_ARRIVAL, METERS, '4', 0);
    sc16is752_step(&chip, SC16IS752_ARRIVAL, METERS, '5', SC16IS752_MARK_PARITY);
    sc16is752_step(&chip, SC16IS752_ARRIVAL, METERS, '1', 0);
    sc16is752_step(&chip, SC16IS752_ARRIVAL, METERS, '1', 0);
}

static void box_starts(void)
{
    sc16is752_new(&chip);
    write_register(SC16IS752_LCR, 0x1B);
    write_register(SC16IS752_FCR, SC16IS752_FCR_FIFO);
}

static void judge(uint8_t character, uint8_t status)
{
    printf(status & SC16IS752_LSR_PARITY ? " %c?" : " %c", character);
}

/* The fault of last spring: the character is taken first, and LSR then speaks of the one behind it. */
static void character_first(void)
{
    printf("character first:");
    for (uint8_t waiting = read_register(SC16IS752_RXLVL); waiting > 0; waiting--) {
        uint8_t character = read_register(SC16IS752_RHR);
        uint8_t status = read_register(SC16IS752_LSR);
        judge(character, status);
    }
    printf("\n");
}

static void status_first(void)
{
    printf("LSR first:      ");
    for (uint8_t waiting = read_register(SC16IS752_RXLVL); waiting > 0; waiting--) {
        uint8_t status = read_register(SC16IS752_LSR);
        uint8_t character = read_register(SC16IS752_RHR);
        judge(character, status);
    }
    printf("\n");
}

int main(void)
{
    box_starts();
    telegram_arrives();
    character_first();

    box_starts();
    telegram_arrives();
    status_first();
    return 0;
}
