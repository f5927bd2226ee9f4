/* Prints how many lines, words and bytes its input has, as wc does, and the longest word with its length. */
#include "gates.h"
#include "numbers.h"

enum { CHUNK = 512, LONGEST = 80 };

struct word {
    unsigned length;
    char letters[LONGEST];
};

struct counts {
    unsigned long long lines, words, bytes;
    struct word current, longest;
};

static int is_space(char c) {
    return c == ' ' || (c >= '\t' && c <= '\r');
}

static void end_word(struct counts *counts) {
    if (counts->current.length > counts->longest.length)
        counts->longest = counts->current; /* a copy of a structure: the compiler calls memcpy */
    counts->words += counts->current.length > 0;
    counts->current.length = 0;
}

static void take(struct counts *counts, char c) {
    counts->bytes++;
    counts->lines += c == '\n';
    if (is_space(c)) {
        end_word(counts);
        return;
    }
    if (counts->current.length < LONGEST)
        counts->current.letters[counts->current.length++] = c;
}

static void put_text(const char *text) {
    unsigned length = 0;
    while (text[length])
        length++;
    put(text, length);
}

static void put_row(const char *name, unsigned long long count) {
    put_number(count);
    put_text(name);
}

int main(void) {
    char chunk[CHUNK];
    struct counts counts = {0};
    long count;
    while ((count = get(chunk, CHUNK)) > 0)
        for (long i = 0; i < count; i++)
            take(&counts, chunk[i]);
    end_word(&counts);
    put_row(" lines\n", counts.lines);
    put_row(" words\n", counts.words);
    put_row(" bytes\n", counts.bytes);
    put_row(" letters: ", counts.longest.length);
    put(counts.longest.letters, counts.longest.length);
    put_text("\n");
    return 0;
}
