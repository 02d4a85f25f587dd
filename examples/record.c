/* The spring fault, recorded while it happens: an event file of all that the box did, which the bench program runs again.
 *
 *     tools/archives
 *     cc -std=c11 -Iinclude examples/record.c target/staticlib/libsc16is752.a target/staticlib/libsc16is752_file.a -o record
 *     ./record fault.events > seen
 *     ./bench < fault.events | diff seen -
 *
 * `seen` has the replies that the box saw, in the lines of the bench program; `diff` is silent, as both saw the same.
 */
#include "sc16is752.h"

#include <stdio.h>

enum { METERS = 0 };

static struct sc16is752 chip;
static FILE *record;
static unsigned events;

/* A step of the chip that is recorded. A refused event has no bytes; it leaves the chip as it was, so nothing is missed. */
static uint32_t step(uint64_t kind, uint64_t x, uint64_t y, uint64_t z)
{
    uint8_t bytes[SC16IS752_LONGEST_EVENT];
    uint32_t answer = sc16is752_step(&chip, kind, x, y, z);
    if (answer < SC16IS752_REFUSED) {
        uint32_t count = sc16is752_event_bytes(kind, x, y, z, bytes, sizeof bytes);
        fwrite(bytes, 1, count, record);
        printf("%u OK %u\n", events++, (unsigned)answer);
    }
    return answer;
}

static uint8_t read_register(unsigned address)
{
    return (uint8_t)step(SC16IS752_READ, METERS, address, 0);
}

static void write_register(unsigned address, unsigned byte)
{
    step(SC16IS752_WRITE, METERS, address, byte);
}

/* What the line brings: the reading 4711, its 7 damaged into a 5. */
static void telegram_arrives(void)
{
    step(SC16IS752_ARRIVAL, METERS, '4', 0);
    step(SC16IS752_ARRIVAL, METERS, '5', SC16IS752_MARK_PARITY);
    step(SC16IS752_ARRIVAL, METERS, '1', 0);
    step(SC16IS752_ARRIVAL, METERS, '1', 0);
}

/* The fault: the character is taken first, so that LSR speaks of the one behind it. */
static void telegram_is_read(void)
{
    for (uint8_t waiting = read_register(SC16IS752_RXLVL); waiting > 0; waiting--) {
        read_register(SC16IS752_RHR);
        read_register(SC16IS752_LSR);
    }
}

int main(int argc, char **argv)
{
    record = argc == 2 ? fopen(argv[1], "wb") : NULL;
    if (record == NULL) {
        fprintf(stderr, "usage: record FILE\n");
        return 2;
    }
    sc16is752_new(&chip);
    write_register(SC16IS752_LCR, 0x1B);
    write_register(SC16IS752_FCR, SC16IS752_FCR_FIFO | SC16IS752_FCR_RX_60);
    telegram_arrives();
    telegram_is_read();
    return fclose(record) == 0 ? 0 : 1;
}
