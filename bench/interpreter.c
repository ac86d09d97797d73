/* A plain interpreter of the same board in C.
 *
 * In the style of the well-known single-file RV32IMA emulators: every step fetches a word and decodes it by
 * switch; nothing is cached, nothing is translated; RAM is one array with a bounds check on each access; harts
 * take turns; mtime ticks once a step.
 */
#include "board.h"

static u64 turns(u64 turn, u64 stop)
{
    for (; turn < stop && !halted; turn++) {
        if (fed()) feed();
        step(&harts[turn_of], turn_of);
        if (++turn_of == nharts) turn_of = 0;
    }
    return turn;
}
