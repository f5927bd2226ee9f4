/* Interprets a small stack language, that of a desk calculator with loops, on numbers of 64 bits:

       1 20 dup [ swap over * swap 1 - dup ] drop .

   prints the factorial of 20. `[` goes past its `]` where the number on top, which it takes, is 0; `]` goes back to its
   `[`. The words stand in a table of names and functions. Exits with 0, or with the number of a fault. */
#include "gates.h"
#include "numbers.h"

enum { MOST_BYTES = 16384, DEPTH = 256 };
enum fault { NONE, EMPTY, FULL, DIVISION, UNKNOWN, UNMATCHED };

typedef long long number;

struct word {
    const char *name;
    int takes, leaves;
    enum fault (*run)(number *top); /* top is the first number that it takes, and where it leaves its own */
};

static char text[MOST_BYTES + 1];
static number stack[DEPTH];
static int depth;

static enum fault add(number *top) { top[0] += top[1]; return NONE; }
static enum fault subtract(number *top) { top[0] -= top[1]; return NONE; }
static enum fault multiply(number *top) { top[0] *= top[1]; return NONE; }
static enum fault less(number *top) { top[0] = top[0] < top[1]; return NONE; }
static enum fault equal(number *top) { top[0] = top[0] == top[1]; return NONE; }
static enum fault shift(number *top) { top[0] = (unsigned long long)top[0] << (top[1] & 63); return NONE; }
static enum fault duplicate(number *top) { top[1] = top[0]; return NONE; }
static enum fault drop(number *top) { (void)top; return NONE; }

static enum fault divide(number *top) {
    if (top[1] == 0)
        return DIVISION;
    top[0] /= top[1];
    return NONE;
}

static enum fault remainder_of(number *top) {
    if (top[1] == 0)
        return DIVISION;
    top[0] %= top[1];
    return NONE;
}

static enum fault swap(number *top) {
    number first = top[0];
    top[0] = top[1];
    top[1] = first;
    return NONE;
}

static enum fault over(number *top) {
    top[2] = top[0];
    return NONE;
}

static enum fault rotate(number *top) {
    number first = top[0];
    top[0] = top[1];
    top[1] = top[2];
    top[2] = first;
    return NONE;
}

static enum fault print(number *top) {
    put_number(top[0]);
    put("\n", 1);
    return NONE;
}

static const struct word words[] = {
    {"+", 2, 1, add},       {"-", 2, 1, subtract},     {"*", 2, 1, multiply}, {"/", 2, 1, divide},
    {"%", 2, 1, remainder_of}, {"<", 2, 1, less},      {"=", 2, 1, equal},    {"<<", 2, 1, shift},
    {"dup", 1, 2, duplicate}, {"drop", 1, 0, drop},    {"swap", 2, 2, swap},  {"over", 2, 3, over},
    {"rot", 3, 3, rotate},  {".", 1, 0, print},
};

static int is_space(char c) {
    return c == ' ' || c == '\n' || c == '\t';
}

static int is_digit(char c) {
    return c >= '0' && c <= '9';
}

/* Whether the word at a place, up to the next space, is a name. */
static int is_name(const char *at, const char *name) {
    while (*name && *at == *name)
        at++, name++;
    return !*name && (!*at || is_space(*at));
}

static const struct word *word_at(const char *at) {
    for (unsigned i = 0; i < sizeof words / sizeof *words; i++)
        if (is_name(at, words[i].name))
            return &words[i];
    return 0;
}

static enum fault run_word(const struct word *word) {
    if (depth < word->takes)
        return EMPTY;
    if (depth - word->takes + word->leaves > DEPTH)
        return FULL;
    number *top = stack + depth - word->takes;
    depth += word->leaves - word->takes;
    return word->run(top);
}

static enum fault push(const char *at) {
    number value = 0;
    if (depth == DEPTH)
        return FULL;
    for (; is_digit(*at); at++)
        value = value * 10 + (*at - '0');
    stack[depth++] = value;
    return NONE;
}

/* The bracket that matches the one at a place, in a direction, or 0. */
static const char *matching(const char *at, int direction) {
    int level = 0;
    for (; at >= text && *at; at += direction) {
        level += (*at == '[') - (*at == ']');
        if (level == 0)
            return at;
    }
    return 0;
}

/* Runs the word at a place, and moves the place to where the next may begin. */
static enum fault step(const char **at) {
    const char *here = *at;
    const struct word *word;
    enum fault fault = NONE;
    if (*here == '[') {
        if (depth == 0)
            return EMPTY;
        if (stack[--depth] == 0)
            here = matching(here, 1);
    } else if (*here == ']') {
        here = matching(here, -1);
        *at = here;
        return here ? NONE : UNMATCHED;
    } else if (is_digit(*here)) {
        fault = push(here);
    } else if ((word = word_at(here))) {
        fault = run_word(word);
    } else {
        fault = UNKNOWN;
    }
    if (!here)
        return UNMATCHED;
    while (*here && !is_space(*here))
        here++;
    *at = here;
    return fault;
}

int main(void) {
    long length = get(text, MOST_BYTES);
    const char *at = text;
    text[length] = 0;
    for (;;) {
        enum fault fault;
        while (is_space(*at))
            at++;
        if (!*at)
            return NONE;
        if ((fault = step(&at)))
            return fault;
    }
}
