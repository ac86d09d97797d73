/* Five interrupts of the timer, 1000 turns apart.
   prints: tick 1 to tick 5, a line each */

#include "board.h"

#define APART 1000

static volatile uint32_t ticks;

/* Called at a trap: saves what it uses, and ends with mret. */
__attribute__((interrupt("machine"))) static void handle_trap(void)
{
    if (READ_CSR(mcause) != (0x80000000u | TIMER_INTERRUPT)) {
        HALT = 1; /* a trap that nobody expects */
    }
    ticks++;
    set_timer(0, now() + APART);
}

int main(void)
{
    uint32_t shown = 0;
    WRITE_CSR(mtvec, (uint32_t)handle_trap);
    set_timer(0, now() + APART);
    SET_CSR(mie, 1u << TIMER_INTERRUPT);
    SET_CSR(mstatus, 1u << 3); /* MIE */
    while (shown < 5) {
        __asm__ volatile("wfi");
        if (ticks > shown) {
            shown++;
            send_text("tick ");
            send_number(shown);
            send('\n');
        }
    }
    return 0;
}
