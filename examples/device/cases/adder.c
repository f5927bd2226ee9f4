/* Exits with the sum of the first 40 words that come. */
#include "gates.h"

unsigned long long take(void); /* the word, and in the upper half its sender's number plus 1; or 0 */

int main(void) {
    unsigned sum = 0;
    for (int count = 0; count < 40;) {
        unsigned long long letter = take();
        if (letter >> 32 == 0) {
            yield_turn();
            continue;
        }
        sum += (unsigned)letter;
        count++;
    }
    return (int)sum;
}
