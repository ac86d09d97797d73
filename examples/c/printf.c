/* printf on the board's console, by picolibc.
   prints: 42 is 2a, and 1/3 is 0.333333 */

#include <stdio.h>

#include "board.h"

static int put(char byte, FILE *file)
{
    (void)file;
    send(byte);
    return (unsigned char)byte;
}

static FILE console = FDEV_SETUP_STREAM(put, NULL, NULL, _FDEV_SETUP_WRITE);
FILE *const stdout = &console;

int main(void)
{
    printf("%d is %x, and 1/3 is %f\n", 42, 42, 1.0 / 3.0);
    return 0;
}
