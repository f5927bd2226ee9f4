/* Counts the words of its input in a hash table that grows, and prints those that occur more than once, by their counts
   and then in the order of the alphabet. */
#include "gates.h"
#include "numbers.h"

enum { LETTERS = 16384, ENTRIES = 2048, SMALLEST = 16, LARGEST = 4096 };

struct entry {
    const char *word;
    unsigned length, hash, count;
};

struct table {
    unsigned size, used;
    struct entry *slots[LARGEST];
};

static char letters[LETTERS];
static unsigned letters_used;
static struct entry entries[ENTRIES];
static struct table table = {.size = SMALLEST};

static unsigned hash_of(const char *word, unsigned length) {
    unsigned hash = 2166136261u;
    for (unsigned i = 0; i < length; i++)
        hash = (hash ^ (unsigned char)word[i]) * 16777619u;
    return hash;
}

static int is_same(const struct entry *entry, const char *word, unsigned length, unsigned hash) {
    if (entry->hash != hash || entry->length != length)
        return 0;
    for (unsigned i = 0; i < length; i++)
        if (entry->word[i] != word[i])
            return 0;
    return 1;
}

/* The slot of the word, or the free slot where it goes. */
static struct entry **slot_of(const char *word, unsigned length, unsigned hash) {
    unsigned at = hash & (table.size - 1);
    while (table.slots[at] && !is_same(table.slots[at], word, length, hash))
        at = (at + 1) & (table.size - 1);
    return &table.slots[at];
}

static void grow(void) {
    for (unsigned i = 0; i < table.size; i++)
        table.slots[i] = 0;
    table.size *= 2;
    for (unsigned i = 0; i < table.used; i++)
        *slot_of(entries[i].word, entries[i].length, entries[i].hash) = &entries[i];
}

static int add(const char *word, unsigned length) {
    unsigned hash = hash_of(word, length);
    struct entry **slot = slot_of(word, length, hash);
    if (*slot) {
        (*slot)->count++;
        return 0;
    }
    if (table.used == ENTRIES || letters_used + length > LETTERS)
        return 1;
    char *own = letters + letters_used;
    for (unsigned i = 0; i < length; i++)
        own[i] = word[i];
    letters_used += length;
    struct entry *entry = &entries[table.used++];
    *entry = (struct entry){own, length, hash, 1};
    *slot = entry;
    if (table.used * 4 > table.size * 3)
        grow();
    return 0;
}

static int is_before(const struct entry *a, const struct entry *b) {
    if (a->count != b->count)
        return a->count > b->count;
    unsigned shorter = a->length < b->length ? a->length : b->length;
    for (unsigned i = 0; i < shorter; i++)
        if (a->word[i] != b->word[i])
            return a->word[i] < b->word[i];
    return a->length < b->length;
}

/* Shell's sort. */
static void sort(struct entry *first, unsigned count) {
    for (unsigned gap = count / 2; gap; gap /= 2)
        for (unsigned i = gap; i < count; i++) {
            struct entry moved = first[i];
            unsigned at = i;
            for (; at >= gap && is_before(&moved, &first[at - gap]); at -= gap)
                first[at] = first[at - gap];
            first[at] = moved;
        }
}

static int count_words(void) {
    char chunk[256], word[64];
    unsigned length = 0;
    for (long count; (count = get(chunk, sizeof chunk)) > 0;)
        for (long i = 0; i < count; i++) {
            char c = chunk[i];
            if (c >= 'A' && c <= 'Z')
                c += 'a' - 'A';
            if (c >= 'a' && c <= 'z') {
                if (length < sizeof word)
                    word[length++] = c;
            } else if (length) {
                if (add(word, length))
                    return 1;
                length = 0;
            }
        }
    return length && add(word, length);
}

int main(void) {
    if (count_words())
        return 2;
    sort(entries, table.used);
    for (unsigned i = 0; i < table.used && entries[i].count > 1; i++) {
        put_number(entries[i].count);
        put(" ", 1);
        put(entries[i].word, entries[i].length);
        put("\n", 1);
    }
    return table.used % 251;
}
