/* Prints the lines of its input that the regular expression in its first line matches somewhere. An
   expression has letters, `.`, classes such as `[a-z_]` and `[^ ]`, the marks `*`, `+` and `?` after
   these, and `^` and `$` at its ends. */
#include "gates.h"

enum { MOST = 8192 };

static char input[MOST + 1];

struct item {
    const char *begin, *end; /* the character or class, without its mark */
    char mark;               /* '*', '+', '?' or 0 */
};

static int match_rest(const char *pattern, const char *text);

/* Whether a class, from its '[' to its ']', has the character. */
static int has(const char *begin, const char *end, char c) {
    const char *at = begin + 1;
    int inverted = *at == '^';
    if (inverted)
        at++;
    for (; at < end - 1; at++) {
        if (at + 2 < end - 1 && at[1] == '-') {
            if (at[0] <= c && c <= at[2])
                return !inverted;
            at += 2;
        } else if (*at == c) {
            return !inverted;
        }
    }
    return inverted;
}

static int fits(const struct item *item, char c) {
    switch (*item->begin) {
    case 0:
        return 0;
    case '.':
        return 1;
    case '[':
        return has(item->begin, item->end, c);
    case '\\':
        return item->begin[1] == c;
    default:
        return *item->begin == c;
    }
}

static struct item first_item(const char *pattern) {
    struct item item = {pattern, pattern + 1, 0};
    if (*pattern == '\\' && pattern[1])
        item.end++;
    if (*pattern == '[') {
        while (*item.end && *item.end != ']')
            item.end++;
        if (*item.end)
            item.end++;
    }
    if (*item.end == '*' || *item.end == '+' || *item.end == '?')
        item.mark = *item.end;
    return item;
}

/* Takes as many characters as it can, and then gives back one after another. */
static int match_many(const struct item *item, const char *text, int least, int most) {
    int count = 0;
    while (count < most && text[count] && fits(item, text[count]))
        count++;
    for (; count >= least; count--)
        if (match_rest(item->end + 1, text + count))
            return 1;
    return 0;
}

static int match_rest(const char *pattern, const char *text) {
    while (*pattern) {
        if (pattern[0] == '$' && pattern[1] == 0)
            return *text == 0;
        struct item item = first_item(pattern);
        switch (item.mark) {
        case '*':
            return match_many(&item, text, 0, MOST);
        case '+':
            return match_many(&item, text, 1, MOST);
        case '?':
            return match_many(&item, text, 0, 1);
        }
        if (*text == 0 || !fits(&item, *text))
            return 0;
        pattern = item.end;
        text++;
    }
    return 1;
}

static int matches(const char *pattern, const char *text) {
    if (*pattern == '^')
        return match_rest(pattern + 1, text);
    do
        if (match_rest(pattern, text))
            return 1;
    while (*text++);
    return 0;
}

/* Ends the line at text by 0, and answers where the next begins. */
static char *end_line(char *text) {
    while (*text && *text != '\n')
        text++;
    if (*text)
        *text++ = 0;
    return text;
}

static void put_line(const char *text) {
    unsigned length = 0;
    while (text[length])
        length++;
    put(text, length);
    put("\n", 1);
}

int main(void) {
    unsigned length = 0;
    long count;
    while (length < MOST && (count = get(input + length, MOST - length)) > 0)
        length += count;
    input[length] = 0;
    char *line = end_line(input);
    int found = 0;
    while (*line) {
        char *next = end_line(line);
        if (matches(input, line)) {
            put_line(line);
            found++;
        }
        line = next;
    }
    return found % 251;
}
