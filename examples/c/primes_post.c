/* Finds the primes below 100 and posts each to sandbox 1, and then 0 as the end. Where the mailbox is full it tries
   again in its next turn. primes_take.c is sandbox 1. */
#include "gates.h"

static int is_prime(unsigned number) {
    for (unsigned divisor = 2; divisor * divisor <= number; divisor++)
        if (number % divisor == 0)
            return 0;
    return 1;
}

static void send(unsigned word) {
    while (post_word(1, word) == 1)
        yield_turn();
}

int main(void) {
    for (unsigned number = 2; number < 100; number++)
        if (is_prime(number))
            send(number);
    send(0);
    return 0;
}
