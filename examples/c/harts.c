/* As many harts as the board has raise one counter 1000 times each; hart 0 waits for the others, and checks it.
   make harts.elf && rvmove run harts.elf --harts 4
   prints: 4 harts, 4000 */

#include "board.h"

#define TIMES 1000

static uint32_t counter, begun, done;

static void count(void)
{
    for (uint32_t time = 0; time < TIMES; time++)
        __atomic_fetch_add(&counter, 1, __ATOMIC_SEQ_CST);
    __atomic_fetch_add(&done, 1, __ATOMIC_SEQ_CST);
}

void other_main(uint32_t hart)
{
    (void)hart;
    __atomic_fetch_add(&begun, 1, __ATOMIC_SEQ_CST);
    count();
}

int main(void)
{
    __atomic_fetch_add(&begun, 1, __ATOMIC_SEQ_CST);
    count();
    /* Harts take turns, so all that there are have begun long before hart 0 is done. */
    while (__atomic_load_n(&done, __ATOMIC_SEQ_CST) != __atomic_load_n(&begun, __ATOMIC_SEQ_CST))
        ;
    send_number(begun);
    send_text(" harts, ");
    send_number(counter);
    send('\n');
    return counter == TIMES * begun ? 0 : 1;
}
