/* The primes below 100, by the sieve of Eratosthenes, on the board's console.
   prints: 2 3 5 7 11 13 17 19 23 29 31 37 41 43 47 53 59 61 67 71 73 79 83 89 97 */

#include "board.h"

#define LIMIT 100

static unsigned char composite[LIMIT];

int main(void)
{
    for (unsigned n = 2; n < LIMIT; n++) {
        if (composite[n])
            continue;
        if (n > 2)
            send(' ');
        send_number(n);
        for (unsigned multiple = n * n; multiple < LIMIT; multiple += n)
            composite[multiple] = 1;
    }
    send('\n');
    return 0;
}
