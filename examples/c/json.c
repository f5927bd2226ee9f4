/* Reads a JSON text into a tree, and prints it without white space, with the members of each object in the order of
   their names. Where the text is wrong it prints the place, counted from 0, and ends in 1. Numbers are whole. */
#include "gates.h"
#include "numbers.h"

enum { MOST = 16384, VALUES = 2048, DEEPEST = 32 };

enum kind { NOTHING, TRUTH, NUMBER, STRING, ARRAY, OBJECT };

struct value {
    enum kind kind;
    const char *text; /* a string's characters, as they stand in the input */
    long number;      /* a number, the length of a string, or 0 and 1 for false and true */
    const char *name; /* of a member of an object */
    long name_length;
    struct value *first, *next; /* what an array or object holds, one after the other */
};

static char input[MOST + 1];
static const char *at;
static struct value values[VALUES];
static unsigned used;
static int depth;

static struct value *read_value(void);

static void skip_space(void) {
    while (*at == ' ' || *at == '\n' || *at == '\t' || *at == '\r')
        at++;
}

/* Passes the character, after white space, if it is there. */
static int passed(char c) {
    skip_space();
    if (*at != c)
        return 0;
    at++;
    return 1;
}

static struct value *new_value(enum kind kind) {
    if (used == VALUES)
        return 0;
    values[used].kind = kind;
    return &values[used++];
}

static int is_digit(char c) {
    return c >= '0' && c <= '9';
}

/* The characters of a string, and their number, or -1 where it doesn't end. */
static long read_string(const char **text) {
    *text = ++at;
    for (; *at != '"'; at++) {
        if ((unsigned char)*at < ' ')
            return -1;
        if (*at == '\\' && (unsigned char)*++at < ' ')
            return -1;
    }
    return at++ - *text;
}

static struct value *read_number(void) {
    long number = 0;
    int negative = *at == '-';
    if (negative)
        at++;
    if (!is_digit(*at))
        return 0;
    for (; is_digit(*at); at++) {
        int digit = *at - '0';
        if (number > (2147483647 - digit) / 10)
            return 0;
        number = number * 10 + digit;
    }
    struct value *value = new_value(NUMBER);
    if (value)
        value->number = negative ? -number : number;
    return value;
}

static struct value *read_word(const char *word, enum kind kind, long number) {
    for (; *word; word++, at++)
        if (*at != *word)
            return 0;
    struct value *value = new_value(kind);
    if (value)
        value->number = number;
    return value;
}

static int compare(const struct value *a, const struct value *b) {
    for (long i = 0; i < a->name_length && i < b->name_length; i++)
        if (a->name[i] != b->name[i])
            return (unsigned char)a->name[i] - (unsigned char)b->name[i];
    return a->name_length - b->name_length;
}

static void insert_sorted(struct value *object, struct value *member) {
    struct value **place = &object->first;
    while (*place && compare(*place, member) <= 0)
        place = &(*place)->next;
    member->next = *place;
    *place = member;
}

static struct value *read_member(void) {
    const char *name;
    long length;
    skip_space();
    if (*at != '"' || (length = read_string(&name)) < 0 || !passed(':'))
        return 0;
    struct value *value = read_value();
    if (value) {
        value->name = name;
        value->name_length = length;
    }
    return value;
}

static struct value *read_object(void) {
    struct value *object = new_value(OBJECT);
    at++;
    if (!object || passed('}'))
        return object;
    do {
        struct value *member = read_member();
        if (!member)
            return 0;
        insert_sorted(object, member);
    } while (passed(','));
    return passed('}') ? object : 0;
}

static struct value *read_array(void) {
    struct value *array = new_value(ARRAY);
    at++;
    if (!array || passed(']'))
        return array;
    struct value **end = &array->first;
    do {
        *end = read_value();
        if (!*end)
            return 0;
        end = &(*end)->next;
    } while (passed(','));
    return passed(']') ? array : 0;
}

static struct value *read_text(void) {
    struct value *value = new_value(STRING);
    if (value && (value->number = read_string(&value->text)) < 0)
        return 0;
    return value;
}

static struct value *read_inside(void) {
    switch (*at) {
    case '{':
        return read_object();
    case '[':
        return read_array();
    case '"':
        return read_text();
    case 't':
        return read_word("true", TRUTH, 1);
    case 'f':
        return read_word("false", TRUTH, 0);
    case 'n':
        return read_word("null", NOTHING, 0);
    default:
        return read_number();
    }
}

static struct value *read_value(void) {
    skip_space();
    if (depth == DEEPEST)
        return 0;
    depth++;
    struct value *value = read_inside();
    depth--;
    return value;
}

static void put_quoted(const char *text, long length) {
    put("\"", 1);
    put(text, length);
    put("\"", 1);
}

static void put_value(const struct value *value);

static void put_all(const struct value *whole) {
    int is_object = whole->kind == OBJECT;
    put(is_object ? "{" : "[", 1);
    for (const struct value *part = whole->first; part; part = part->next) {
        if (is_object) {
            put_quoted(part->name, part->name_length);
            put(":", 1);
        }
        put_value(part);
        if (part->next)
            put(",", 1);
    }
    put(is_object ? "}" : "]", 1);
}

static void put_value(const struct value *value) {
    switch (value->kind) {
    case NOTHING:
        put("null", 4);
        break;
    case TRUTH:
        put(value->number ? "true" : "false", 5 - value->number);
        break;
    case NUMBER:
        put_number(value->number);
        break;
    case STRING:
        put_quoted(value->text, value->number);
        break;
    default:
        put_all(value);
    }
}

int main(void) {
    unsigned length = 0;
    long count;
    while (length < MOST && (count = get(input + length, MOST - length)) > 0)
        length += count;
    input[length] = 0;
    at = input;
    struct value *value = read_value();
    skip_space();
    if (!value || *at) {
        put("wrong at ", 9);
        put_number(at - input);
        put("\n", 1);
        return 1;
    }
    put_value(value);
    put("\n", 1);
    return 0;
}
