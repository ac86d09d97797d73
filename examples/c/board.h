/* The board, as C sees it: docs/BOARD.md. */
#ifndef BOARD_H
#define BOARD_H

#include <stdint.h>

#define WORD_AT(address) (*(volatile uint32_t *)(address))

/* A store to it ends the run; the low byte is the status. */
#define HALT WORD_AT(0x00100000)

/* A software interrupt of hart h is pending while bit 0 is set. */
#define MSIP(h) WORD_AT(0x02000000 + 4 * (h))
#define MTIMECMP_LOW(h) WORD_AT(0x02004000 + 8 * (h))
#define MTIMECMP_HIGH(h) WORD_AT(0x02004004 + 8 * (h))
#define MTIME_LOW WORD_AT(0x0200BFF8)
#define MTIME_HIGH WORD_AT(0x0200BFFC)

#define TRANSMIT WORD_AT(0x10000000)
#define RECEIVE WORD_AT(0x10000004)
#define STATUS WORD_AT(0x10000008)
#define INPUT_INTERRUPT WORD_AT(0x1000000C)

/* Bits of mie, and the codes of these interrupts in mcause. */
enum { SOFTWARE_INTERRUPT = 3, TIMER_INTERRUPT = 7, EXTERNAL_INTERRUPT = 11 };

#define READ_CSR(name) ({ uint32_t value_; __asm__ volatile("csrr %0, " #name : "=r"(value_)); value_; })
#define WRITE_CSR(name, value) __asm__ volatile("csrw " #name ", %0" : : "r"(value) : "memory")
#define SET_CSR(name, bits) __asm__ volatile("csrs " #name ", %0" : : "r"(bits) : "memory")
#define CLEAR_CSR(name, bits) __asm__ volatile("csrc " #name ", %0" : : "r"(bits) : "memory")

static inline void send(char byte)
{
    TRANSMIT = (unsigned char)byte;
}

static inline void send_text(const char *text)
{
    while (*text)
        send(*text++);
}

static inline void send_number(uint32_t number)
{
    if (number >= 10)
        send_number(number / 10);
    send((char)('0' + number % 10));
}

/* The next byte of input, for which it waits. */
static inline char receive(void)
{
    int32_t byte;
    do {
        byte = (int32_t)RECEIVE;
    } while (byte < 0);
    return (char)byte;
}

static inline uint64_t now(void)
{
    uint32_t high, low;
    do {
        high = MTIME_HIGH;
        low = MTIME_LOW;
    } while (high != MTIME_HIGH);
    return (uint64_t)high << 32 | low;
}

/* The timer interrupt of a hart is pending from this time on. It cannot fire in between. */
static inline void set_timer(uint32_t hart, uint64_t time)
{
    MTIMECMP_LOW(hart) = 0xFFFFFFFF;
    MTIMECMP_HIGH(hart) = (uint32_t)(time >> 32);
    MTIMECMP_LOW(hart) = (uint32_t)time;
}

#endif
