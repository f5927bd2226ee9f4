/* Puts addresses of each kind, as they stand in code and in data, and goes by some of them. */
#include "gates.h"

enum { CASES = 80, NODES = 300 };

struct node {
    const struct node *next;
    int value;
};

struct entry {
    const char *name;
    int (*function)(int);
};

extern int elsewhere[];
extern int *const into_elsewhere;
int twice(int number);
int absent(int number) __attribute__((weak));
extern int absent_object __attribute__((weak));

static int added(int number) {
    return number + 1;
}

static char small[4];
static char large[5000];
static const struct node last = {0, 1}, first = {&last, 2};
static const struct entry entries[] = {{"added", added}, {"twice", twice}};
static char *const ends[] = {large, large + sizeof large, large - 16, small + 4};
const char *volatile text = "text";
static int *volatile through = elsewhere + 3;
static struct node nodes[NODES] = {[0] = {&nodes[NODES - 1], 5}, [NODES - 1] = {&first, 7}}; /* far from each other */

/* A table of addresses in the data, if each case has another function. */
#define CASE(number) case number: return (number * 7) ^ argument
#define FOUR(number) CASE(number); CASE(number + 1); CASE(number + 2); CASE(number + 3)
#define SIXTEEN(number) FOUR(number); FOUR(number + 4); FOUR(number + 8); FOUR(number + 12)

__attribute__((noinline)) static int chosen(int number, int argument) {
    static const void *const labels[] = {&&one, &&two};
    if (number < 0)
        goto *labels[argument & 1];
    switch (number) {
        SIXTEEN(0);
        SIXTEEN(16);
        SIXTEEN(32);
        SIXTEEN(48);
        SIXTEEN(64);
    }
    return -1;
one:
    return 100;
two:
    return 200;
}

static void put_address(const void *address) {
    put(&address, sizeof address);
}

__attribute__((noinline)) static int sum(const int *from, const int *to) {
    int found = 0;
    while (from != to)
        found += *from++;
    return found;
}

int main(void) {
    int answer = 0, (*volatile function)(int) = added;
    put_address(small), put_address(large), put_address(large + 4000), put_address(ends), put_address(text);
    put_address((const void *)function), put_address((const void *)twice), put_address((const void *)chosen);
    put_address((const void *)absent), put_address(&absent_object), put_address(&answer);
    put_address(elsewhere), put_address(into_elsewhere), put_address(through), put_address(elsewhere + 8);
    put(ends, sizeof ends), put(entries, sizeof entries), put(nodes, sizeof nodes);
    for (int number = -2; number < CASES; number++)
        answer += chosen(number, number);
    for (const struct node *at = nodes; at; at = at->next)
        answer = answer * 3 + at->value;
    for (unsigned number = 0; number < sizeof entries / sizeof *entries; number++)
        answer += entries[number].function(entries[number].name[0]);
    if (absent)
        answer += absent(1000);
    answer += sum(elsewhere, elsewhere + 8) + sum(through, into_elsewhere) + function(text[1]);
    put(&answer, sizeof answer);
    return 0;
}
