/* What session.gdb looks at: a list, a recursion, and at last a store below the data. */
#include "gates.h"

struct item {
    struct item *next;
    int weight;
    const char *name;
};

static struct item items[4];
int total;

int length(const char *text) {
    int count = 0;
    while (text[count])
        count++;
    return count;
}

__attribute__((noinline)) static int heaviest(const struct item *first) {
    int best = 0;
    for (const struct item *at = first; at; at = at->next) {
        int weight = at->weight * 10 + length(at->name);
        total += weight;
        if (weight > best)
            best = weight;
    }
    return best;
}

__attribute__((noinline)) int factorial(int n) {
    if (n < 2)
        return 1;
    int rest = factorial(n - 1);
    return n * rest;
}

__attribute__((noinline)) static void fill(void) {
    static const char *const names[4] = {"feather", "brick", "anvil", "pin"};
    static const int weights[4] = {1, 30, 500, 2};
    for (int i = 0; i < 4; i++) {
        items[i].name = names[i];
        items[i].weight = weights[i];
        items[i].next = i < 3 ? &items[i + 1] : 0;
    }
}

__attribute__((noinline)) static int wrong(volatile int *at, int by) {
    at[-2] = by;
    return by;
}

int main(void) {
    char line[8];
    fill();
    int best = heaviest(items);
    put("heaviest\n", 9);
    int product = factorial(6);
    long read = get(line, sizeof line);
    put(line, read);
    return wrong((volatile int *)(read - read), product + best);
}
