/* Document 01's listing, Xon and Xoff, every refusal, and events of every kind as they are written, through the C interface.
 * Silent where all answers are as expected. */
#include "sc16is752.h"

#include <stdio.h>
#include <string.h>

struct try {
    uint64_t kind, x, y, z;
    uint32_t answer;
};

#define REFUSED(number) (SC16IS752_REFUSED + (number))

static const struct try listing[] = {
    {SC16IS752_WRITE, 0, SC16IS752_LCR, 0x03, 0},
    {SC16IS752_WRITE, 0, SC16IS752_FCR, SC16IS752_FCR_FIFO, 0},
    {SC16IS752_ARRIVAL, 0, 0x41, SC16IS752_MARK_PARITY, 0},
    {SC16IS752_WRITE, 0, SC16IS752_IER, 0x04, 0},
    {SC16IS752_READ, 0, SC16IS752_IIR, 0, 198},
    {SC16IS752_READ, 0, SC16IS752_LSR, 0, 229},
    {SC16IS752_READ, 0, SC16IS752_RHR, 0, 65},
    {SC16IS752_READ, 0, SC16IS752_LSR, 0, 96},
    {SC16IS752_READ, 2, SC16IS752_LSR, 0, REFUSED(4)},
    {9, 0, 0, 0, REFUSED(3)},
};

/* The first pair is taken and the second sent, any other character resumes; left stopped, and with Xoff waiting. */
static const struct try flow[] = {
    {SC16IS752_WRITE, 1, SC16IS752_LCR, SC16IS752_LCR_ENHANCED, 0},
    {SC16IS752_WRITE, 1, SC16IS752_EFR, SC16IS752_EFR_RX_PAIR_1 | SC16IS752_EFR_TX_PAIR_2 | SC16IS752_EFR_ENHANCED, 0},
    {SC16IS752_WRITE, 1, SC16IS752_XON1, 0x11, 0},
    {SC16IS752_WRITE, 1, SC16IS752_XOFF1, 0x13, 0},
    {SC16IS752_WRITE, 1, SC16IS752_XON2, 0x21, 0},
    {SC16IS752_WRITE, 1, SC16IS752_XOFF2, 0x23, 0},
    {SC16IS752_WRITE, 1, SC16IS752_LCR, SC16IS752_LCR_WORD_8, 0},
    {SC16IS752_WRITE, 1, SC16IS752_FCR, SC16IS752_FCR_FIFO, 0},
    {SC16IS752_WRITE, 1, SC16IS752_IER, SC16IS752_IER_SPECIAL, 0},
    {SC16IS752_WRITE, 1, SC16IS752_MCR, SC16IS752_MCR_XON_ANY, 0},
    {SC16IS752_WRITE, 1, SC16IS752_THR, 0x51, 0},
    {SC16IS752_ARRIVAL, 1, 0x13, 0, SC16IS752_TAKEN},
    {SC16IS752_READ, 1, SC16IS752_IIR, 0, SC16IS752_IIR_FIFO | SC16IS752_INTERRUPT_SPECIAL},
    {SC16IS752_SLOT, 1, 0, 0, SC16IS752_NO_CHARACTER},
    {SC16IS752_READ, 1, SC16IS752_TXLVL, 0, 63},
    {SC16IS752_ARRIVAL, 1, 0x11, 0, SC16IS752_TAKEN},
    {SC16IS752_READ, 1, SC16IS752_IIR, 0, SC16IS752_IIR_FIFO | SC16IS752_INTERRUPT_NONE},
    {SC16IS752_ARRIVAL, 1, 0x13, 0, SC16IS752_TAKEN},
    {SC16IS752_ARRIVAL, 1, 0x41, 0, SC16IS752_KEPT},
    {SC16IS752_IRQ_LOOK, 0, 0, 0, 0},
    {SC16IS752_SLOT, 1, 0, 0, SC16IS752_NO_CHARACTER},
    {SC16IS752_SLOT, 1, 0, 0, 0x51},
    {SC16IS752_ARRIVAL, 1, 0x42, 0, SC16IS752_KEPT},
    {SC16IS752_ARRIVAL, 1, 0x43, 0, SC16IS752_KEPT},
    {SC16IS752_ARRIVAL, 1, 0x44, 0, SC16IS752_KEPT},
    {SC16IS752_ARRIVAL, 1, 0x45, 0, SC16IS752_KEPT},
    {SC16IS752_ARRIVAL, 1, 0x46, 0, SC16IS752_KEPT},
    {SC16IS752_ARRIVAL, 1, 0x47, 0, SC16IS752_KEPT},
    {SC16IS752_READ, 1, SC16IS752_LSR, 0, SC16IS752_LSR_READY | SC16IS752_LSR_TX_EMPTY | SC16IS752_LSR_IDLE},
    {SC16IS752_ARRIVAL, 1, 0x48, 0, SC16IS752_KEPT},
    {SC16IS752_READ, 1, SC16IS752_LSR, 0, SC16IS752_LSR_READY | SC16IS752_LSR_TX_EMPTY},
    {SC16IS752_SLOT, 1, 0, 0, SC16IS752_NO_CHARACTER},
    {SC16IS752_SLOT, 1, 0, 0, 0x23},
    {SC16IS752_WRITE, 1, SC16IS752_FCR, SC16IS752_FCR_FIFO | SC16IS752_FCR_CLEAR_RX, 0},
    {SC16IS752_SLOT, 1, 0, 0, SC16IS752_NO_CHARACTER},
    {SC16IS752_SLOT, 1, 0, 0, 0x21},
    {SC16IS752_WRITE, 1, SC16IS752_MCR, SC16IS752_MCR_TCR_TLR, 0},
    {SC16IS752_WRITE, 1, SC16IS752_TCR, 0x10, 0},
    {SC16IS752_ARRIVAL, 1, 0x13, 0, SC16IS752_TAKEN},
    {SC16IS752_IRQ_LOOK, 0, 0, 0, 1},
    {SC16IS752_WRITE, 1, SC16IS752_IER, 0, 0},
};

/* Each refusal at the first number that meets it and at the last, and in the order of the numbers. */
static const struct try refusals[] = {
    {9, 0, 0, 0, REFUSED(3)},
    {UINT64_MAX, 0, 0, 0, REFUSED(3)},
    {9, 2, 16, 256, REFUSED(3)},
    {SC16IS752_WRITE, 2, 0, 0, REFUSED(4)},
    {SC16IS752_WRITE, UINT64_MAX, 0, 0, REFUSED(4)},
    {SC16IS752_WRITE, 2, 16, 256, REFUSED(4)},
    {SC16IS752_WRITE, 0, 16, 0, REFUSED(5)},
    {SC16IS752_WRITE, 0, UINT64_MAX, 256, REFUSED(5)},
    {SC16IS752_READ, 1, 16, 0, REFUSED(5)},
    {SC16IS752_WRITE, 0, 15, 256, REFUSED(6)},
    {SC16IS752_WRITE, 0, 7, UINT64_MAX, REFUSED(6)},
    {SC16IS752_ARRIVAL, 0, 256, 8, REFUSED(6)},
    {SC16IS752_ARRIVAL, 0, 255, 8, REFUSED(7)},
    {SC16IS752_ARRIVAL, 1, 0, UINT64_MAX, REFUSED(7)},
    {SC16IS752_PINS, 1, 16, 0, REFUSED(8)},
    {SC16IS752_PINS, 1, UINT64_MAX, 0, REFUSED(8)},
    {SC16IS752_SLOT, 2, 0, 0, REFUSED(4)},
    {SC16IS752_QUIET, 2, 0, 0, REFUSED(4)},
    {SC16IS752_RTS_LOOK, 2, 0, 0, REFUSED(4)},
};

/* Events of every kind, as the number rule of document 01 writes them. */
static const struct written {
    uint64_t kind, x, y, z;
    uint32_t count;
    uint8_t bytes[SC16IS752_LONGEST_EVENT];
} written[] = {
    {SC16IS752_WRITE, 0, SC16IS752_LCR, 0x03, 4, {0x00, 0x00, 0x03, 0x03}},
    {SC16IS752_WRITE, 1, SC16IS752_EFCR, 127, 4, {0x00, 0x01, 0x0F, 0x7F}},
    {SC16IS752_WRITE, 1, SC16IS752_EFCR, 128, 5, {0x00, 0x01, 0x0F, 0x80, 0x01}},
    {SC16IS752_WRITE, 0, SC16IS752_THR, 255, 5, {0x00, 0x00, 0x00, 0xFF, 0x01}},
    {SC16IS752_READ, 1, SC16IS752_LSR, UINT64_MAX, 3, {0x01, 0x01, 0x05}},
    {SC16IS752_ARRIVAL, 0, 0x41, 1, 4, {0x02, 0x00, 0x41, 0x01}},
    {SC16IS752_ARRIVAL, 1, 127, 7, 4, {0x02, 0x01, 0x7F, 0x07}},
    {SC16IS752_ARRIVAL, 1, 128, 0, 5, {0x02, 0x01, 0x80, 0x01, 0x00}},
    {SC16IS752_ARRIVAL, 0, 200, 7, 5, {0x02, 0x00, 0xC8, 0x01, 0x07}},
    {SC16IS752_SLOT, 1, UINT64_MAX, UINT64_MAX, 2, {0x03, 0x01}},
    {SC16IS752_PINS, 0, 15, UINT64_MAX, 3, {0x04, 0x00, 0x0F}},
    {SC16IS752_QUIET, 0, UINT64_MAX, UINT64_MAX, 2, {0x05, 0x00}},
    {SC16IS752_RESET, UINT64_MAX, UINT64_MAX, UINT64_MAX, 1, {0x06}},
    {SC16IS752_IRQ_LOOK, UINT64_MAX, UINT64_MAX, UINT64_MAX, 1, {0x07}},
    {SC16IS752_RTS_LOOK, 1, UINT64_MAX, UINT64_MAX, 2, {0x08, 0x01}},
};

static int wrong;

static void try(struct sc16is752 *chip, const struct try *t)
{
    uint32_t answer = sc16is752_step(chip, t->kind, t->x, t->y, t->z);
    if (answer != t->answer) {
        printf("kind %llu: %u expected, %u given\n", (unsigned long long)t->kind, (unsigned)t->answer, (unsigned)answer);
        wrong = 1;
    }
}

/* An event written to so many bytes of a larger buffer: the answer, so many of the bytes put, and all else as it was. */
static void try_written(const struct try *t, const uint8_t *bytes, size_t put, size_t length)
{
    enum { AROUND = 8 };
    uint8_t buffer[AROUND + SC16IS752_LONGEST_EVENT + AROUND], expected[sizeof buffer];
    memset(buffer, 0xA5, sizeof buffer);
    memset(expected, 0xA5, sizeof expected);
    for (size_t i = 0; i < put; i++)
        expected[AROUND + i] = bytes[i];
    uint32_t answer = sc16is752_event_bytes(t->kind, t->x, t->y, t->z, buffer + AROUND, length);
    if (answer != t->answer || memcmp(buffer, expected, sizeof buffer) != 0) {
        printf("kind %llu written to %zu bytes: %u expected, %u given, or other bytes\n", (unsigned long long)t->kind, length,
            (unsigned)t->answer, (unsigned)answer);
        wrong = 1;
    }
}

int main(void)
{
    struct sc16is752 chip = {0}, before;
    sc16is752_new(&chip);
    for (size_t i = 0; i < sizeof listing / sizeof listing[0]; i++)
        try(&chip, &listing[i]);
    for (size_t i = 0; i < sizeof flow / sizeof flow[0]; i++)
        try(&chip, &flow[i]);

    for (size_t i = 0; i < sizeof refusals / sizeof refusals[0]; i++) {
        memcpy(&before, &chip, sizeof chip);
        try(&chip, &refusals[i]);
        if (memcmp(&before, &chip, sizeof chip) != 0) {
            printf("refusal %zu altered the record\n", i);
            wrong = 1;
        }
    }

    /* What a kind lacks is not looked at. */
    const struct try looks = {SC16IS752_IRQ_LOOK, UINT64_MAX, UINT64_MAX, UINT64_MAX, 0};
    const struct try reset = {SC16IS752_RESET, UINT64_MAX, UINT64_MAX, UINT64_MAX, 0};
    try(&chip, &looks);
    try(&chip, &reset);

    /* In every room: where an event fits its bytes and nothing else, else nothing; of a refused event nothing. */
    for (size_t length = 0; length <= SC16IS752_LONGEST_EVENT; length++) {
        for (size_t i = 0; i < sizeof written / sizeof written[0]; i++) {
            const struct written *w = &written[i];
            uint32_t put = w->count <= length ? w->count : 0;
            const struct try t = {w->kind, w->x, w->y, w->z, put};
            try_written(&t, w->bytes, put, length);
        }
        for (size_t i = 0; i < sizeof refusals / sizeof refusals[0]; i++)
            try_written(&refusals[i], NULL, 0, length);
    }
    return wrong;
}
