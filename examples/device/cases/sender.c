/* Posts the squares below 40 * 40 to the second sandbox. */
#include "gates.h"

long post(unsigned receiver, unsigned word);

int main(void) {
    for (unsigned number = 0; number < 40; number++)
        while (post(1, number * number) == 1)
            yield_turn();
    return 0;
}
