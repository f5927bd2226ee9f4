/* Splits a JSON text (RFC 8259) on standard input into tokens. Prints one a line, with its place, then all in order, and
   then how many there are of each kind. */
#include <assert.h>
#include <ctype.h>
#include <stdbool.h>
#include <stdio.h>
#include <stdlib.h>
#include <string.h>

enum kind { MARK, STRING, NUMBER, WORD, KINDS };

static const char *const names[KINDS] = {"mark", "string", "number", "word"};
static const char *const words[] = {"true", "false", "null"};

struct token {
    enum kind kind;
    int line, column;
    char *text;
};

struct tokens {
    struct token *array;
    size_t count, room;
};

static int line = 1, column = 1, next;

static void advance(void) {
    if (next == '\n') {
        line++;
        column = 0;
    }
    column++;
    next = getchar();
}

static bool is_next_among(const char *set) {
    return next > 0 && strchr(set, next) != NULL;
}

static void fail(const char *what) {
    printf("%d:%d: %s\n", line, column, what);
    exit(EXIT_FAILURE);
}

static void *memory(void *found) {
    if (found == NULL)
        fail("no memory");
    return found;
}

static void append(struct tokens *tokens, struct token token, const char *text, size_t length) {
    if (tokens->count == tokens->room) {
        tokens->room = tokens->room ? 2 * tokens->room : 16;
        tokens->array = memory(realloc(tokens->array, tokens->room * sizeof *tokens->array));
    }
    token.text = memory(malloc(length + 1));
    memcpy(token.text, text, length);
    token.text[length] = '\0';
    tokens->array[tokens->count++] = token;
}

static void check_escape(void) {
    advance();
    if (!is_next_among("\"\\/bfnrtu"))
        fail("a wrong escape");
}

/* A string without its quotes, as it stands. */
static size_t read_string(char *text, size_t room) {
    size_t length = 0;
    for (advance(); next != '"'; advance()) {
        if (next == EOF || next < ' ')
            fail("a string without an end");
        if (length + 2 > room)
            fail("a string that is too long");
        text[length++] = next;
        if (next == '\\') {
            check_escape();
            text[length++] = next;
        }
    }
    advance();
    return length;
}

/* A number or a word: all that may stand in one. */
static size_t read_run(char *text, size_t room) {
    size_t length = 0;
    for (; isalnum(next) || is_next_among("+-."); advance()) {
        if (length == room)
            fail("a token that is too long");
        text[length++] = next;
    }
    return length;
}

static bool is_word(const char *text, size_t length) {
    for (size_t i = 0; i < sizeof words / sizeof *words; i++)
        if (strlen(words[i]) == length && strncmp(words[i], text, length) == 0)
            return true;
    return false;
}

static enum kind kind_of_run(const char *text, size_t length) {
    if (length == 0)
        fail("no token begins here");
    if (text[0] == '-' || isdigit((unsigned char)text[0]))
        return NUMBER;
    if (!is_word(text, length))
        fail("an unknown word");
    return WORD;
}

static void read_token(struct tokens *tokens) {
    char text[256];
    struct token token = {MARK, line, column, NULL};
    size_t length = 1;
    if (is_next_among("{}[]:,")) {
        text[0] = next;
        advance();
    } else if (next == '"') {
        token.kind = STRING;
        length = read_string(text, sizeof text);
    } else {
        length = read_run(text, sizeof text);
        token.kind = kind_of_run(text, length);
    }
    append(tokens, token, text, length);
}

static int by_text(const void *left, const void *right) {
    const struct token *a = left, *b = right;
    int order = strcmp(a->text, b->text);
    return order ? order : a->line != b->line ? a->line - b->line : a->column - b->column;
}

static void print_tokens(const struct tokens *tokens) {
    for (size_t i = 0; i < tokens->count; i++) {
        const struct token *token = &tokens->array[i];
        printf("%3d:%-3d %-7s%s\n", token->line, token->column, names[token->kind], token->text);
    }
}

static void print_counts(const struct tokens *tokens) {
    unsigned counts[KINDS] = {0};
    for (size_t i = 0; i < tokens->count; i++)
        counts[tokens->array[i].kind]++;
    for (int kind = 0; kind < KINDS; kind++)
        printf("%05u %s%s", counts[kind], names[kind], kind + 1 < KINDS ? ", " : "\n");
}

int main(void) {
    struct tokens tokens = {NULL, 0, 0};
    for (next = getchar(); next != EOF;)
        if (isspace(next))
            advance();
        else
            read_token(&tokens);
    assert(tokens.count <= tokens.room);
    print_tokens(&tokens);
    qsort(tokens.array, tokens.count, sizeof *tokens.array, by_text);
    puts("in order:");
    print_tokens(&tokens);
    print_counts(&tokens);
    free(tokens.array);
    return tokens.count > 255 ? 255 : (int)tokens.count;
}
