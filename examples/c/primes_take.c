/* Writes the words that sandbox 0 posts, one a line, up to a 0, and exits with their sum. Where the mailbox is empty it
   tries again in its next turn. primes_post.c is sandbox 0. */
#include "gates.h"
#include "numbers.h"

enum { FIRST = 0 + 1 }; /* a word of sandbox 0 has this sender */

int main(void) {
    unsigned sum = 0;
    for (;;) {
        struct taken_word found = take_word();
        if (found.sender == FIRST && found.word == 0)
            return sum;
        if (found.sender == FIRST) {
            put_number(found.word);
            put("\n", 1);
            sum += found.word;
        } else {
            yield_turn();
        }
    }
}
