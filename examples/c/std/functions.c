/* Prints what each function of the library answers, for answers that C fixes on every machine. Standard input is echoed
   between brackets. */
#include <assert.h>
#include <ctype.h>
#include <limits.h>
#include <stdarg.h>
#include <stdbool.h>
#include <stddef.h>
#include <stdint.h>
#include <stdio.h>
#include <stdlib.h>
#include <string.h>

static int sign(int number) {
    return (number > 0) - (number < 0);
}

static void show_place(const char *name, const char *text, const char *found) {
    printf("%s %d\n", name, found ? (int)(found - text) : -1);
}

static void show_searches(void) {
    const char *text = "one bundle, one gate";
    show_place("memchr", text, memchr(text, 'b', 20));
    show_place("memchr", text, memchr(text, 'b', 4));
    show_place("memchr", text, memchr(text, 256 + 'g', 20));
    show_place("strchr", text, strchr(text, 'n'));
    show_place("strchr", text, strchr(text, 0));
    show_place("strchr", text, strchr(text, 'z'));
    show_place("strrchr", text, strrchr(text, 'o'));
    show_place("strrchr", text, strrchr(text, 0));
    show_place("strrchr", text, strrchr(text, 'z'));
    show_place("strstr", text, strstr(text, "one g"));
    show_place("strstr", text, strstr(text, ""));
    show_place("strstr", text, strstr(text, "gates"));
    text = "aaab";
    show_place("strstr", text, strstr(text, "aab"));
}

static void show_comparisons(void) {
    const char *texts[] = {"", "a", "ab", "abc", "b", "\xff", "a\x80"};
    for (size_t i = 0; i < 7; i++)
        for (size_t j = 0; j < 7; j++)
            printf("%2d%2d%2d%2d", sign(strcmp(texts[i], texts[j])), sign(strncmp(texts[i], texts[j], 1)),
                   sign(strncmp(texts[i], texts[j], 2)), sign(memcmp(texts[i], texts[j], 1)));
    printf("\n%d\n", strncmp("a", "b", 0));
}

static void show_copies(void) {
    char text[24], room[8];
    memset(text, '-', sizeof text);
    printf("%d\n", strcpy(text, "stack") == text);
    strcat(strcat(text, " and "), "data");
    printf("%s %d\n", text, (int)strlen(text));
    memmove(text + 2, text, 10);
    printf("%s\n", text);
    memmove(text, text + 2, 13);
    printf("%s\n", text);
    memset(room, 'x', sizeof room);
    strncpy(room, "abc", 6);
    for (size_t i = 0; i < sizeof room; i++)
        printf("%02x ", (unsigned)room[i]);
    strncpy(room, "abcdefghij", 7);
    printf("%.7s\n", room);
}

static void show_classes(void) {
    int (*const classes[])(int) = {isalnum, isalpha, isblank, iscntrl, isdigit, isgraph,
                                   islower, isprint, ispunct, isspace, isupper, isxdigit};
    for (int character = EOF; character < 128; character++) {
        unsigned found = 0;
        for (size_t i = 0; i < sizeof classes / sizeof *classes; i++)
            found = found << 1 | (classes[i](character) != 0);
        printf("%03x:%d:%d ", found, tolower(character), toupper(character));
    }
    putchar('\n');
}

static void show_number(const char *text, int base) {
    char *end;
    long number = strtol(text, &end, base);
    printf("%ld %d ", number, (int)(end - text));
    unsigned long unsigned_number = strtoul(text, &end, base);
    printf("%lu %d\n", unsigned_number & 0xffffffff, (int)(end - text));
}

static void show_numbers(void) {
    const char *texts[] = {"0", "12x", "  -77", "+5", "0x1F", "0x", "0xg", "017", "09", "z", "", " - 1", "214748", "-0x8",
                           "\t\n9"};
    for (size_t i = 0; i < sizeof texts / sizeof *texts; i++) {
        show_number(texts[i], 10);
        show_number(texts[i], 0);
        show_number(texts[i], 16);
        show_number(texts[i], 36);
    }
    show_number("101102", 2);
    show_number("2147483647", 10);
    show_number("-2147483648", 10);
    const char *large = "-99999999999999999999";
    printf("%d %d %d\n", strtol(large, NULL, 10) == LONG_MIN, strtol(large + 1, NULL, 36) == LONG_MAX,
           strtoul(large + 1, NULL, 10) == ULONG_MAX);
    printf("%d %d %d %ld %ld\n", atoi("  42 "), atoi("-2147483648"), atoi("none"), atol("-9"), labs(-5L));
    printf("%d %d %d\n", abs(-3), abs(3), abs(-2147483647));
}

static int by_number(const void *left, const void *right) {
    int a = *(const int *)left, b = *(const int *)right;
    return (a > b) - (a < b);
}

static int by_bytes(const void *left, const void *right) {
    return memcmp(left, right, 3);
}

static void show_sorting(void) {
    for (size_t count = 0; count < 20; count++) {
        int numbers[20];
        for (size_t i = 0; i < count; i++)
            numbers[i] = (int)((i * 7919 + count) % 13) - 6;
        qsort(numbers, count, sizeof *numbers, by_number);
        for (size_t i = 0; i < count; i++)
            printf("%d ", numbers[i]);
    }
    char triples[] = "thecatsatforthematnow";
    qsort(triples, 7, 3, by_bytes);
    puts(triples);
}

static void show_memory(void) {
    char *first = malloc(5), *second = calloc(3, 4), *third;
    bool zeros = true;
    for (int i = 0; i < 12; i++)
        zeros &= second[i] == 0;
    strcpy(first, "four");
    third = realloc(first, 40);
    printf("%d %s %d\n", zeros, third, (uintptr_t)second % _Alignof(max_align_t) == 0);
    printf("%d %d\n", realloc(NULL, 8) != NULL, malloc(0) == malloc(0) && malloc(0));
    free(second);
    free(third);
    free(NULL);
}

static void show_random(void) {
    bool within = true;
    srand(7);
    int first = rand(), second = rand();
    for (int i = 0; i < 1000; i++) {
        int number = rand();
        within &= number >= 0 && number <= RAND_MAX;
    }
    srand(7);
    bool same = rand() == first;
    same &= rand() == second;
    printf("%d %d %d\n", within, RAND_MAX >= 32767, same);
}

static void show_forms(void) {
    printf("%d %i %5d|%-5d|%05d|%+d|% d|%.3d|%8.3d|%-8.3d|%.0d|\n", 0, -1, 42, 42, -42, 42, 42, 7, -7, -7, 0);
    printf("%u %x %X %o %#x %#X %#o %#x|%08x|%-8x|%8X|%.4x|\n", 4294967295u, 48879u, 48879u, 8u, 255u, 255u, 8u, 0u,
           0xbeefu, 0xbeefu, 0xbeefu, 0xbu);
    printf("%ld %lu %lx %+ld %010ld\n", -123456789L, 123456789UL, 0xabcdefUL, 5L, -77L);
    printf("%lld %llu %llx %lld %020lld\n", LLONG_MIN, ULLONG_MAX, ULLONG_MAX, LLONG_MAX, -10000000000LL);
    printf("%zu %td %jd\n", sizeof(char), (ptrdiff_t)-4, (intmax_t)-5);
    printf("%c%c|%5c|%-5c|%%|\n", 'a', 'b', 'c', 'd');
    printf("%s|%10s|%-10s|%.2s|%6.3s|%s|\n", "text", "right", "left", "cut", "both", "");
    printf("%*d|%-*d|%*d|%.*s|%.*d\n", 6, 1, 6, 2, -6, 3, 2, "abc", -1, 4);
    printf("%#5o|%#05x|%+.2d|%+5d|% 05d|%-5d|%x\n", 8u, 10u, 3, 3, 3, 3, (unsigned)INT_MIN);
    printf("%d\n", printf("%s", ""));
    printf("%d\n", printf("%s%90d\n", "a line longer than the buffer in which printf gathers its text", 1));
}

static int formatted(char *to, size_t room, const char *form, ...) {
    va_list arguments;
    va_start(arguments, form);
    int total = vsnprintf(to, room, form, arguments);
    va_end(arguments);
    return total;
}

static void show_buffers(void) {
    char text[32] = "-----------";
    int total = formatted(text, sizeof text, "%hhd %hhu %hd %hu", 300, 300, 70000, 70000);
    printf("%d %s\n", total, text);
    memset(text, '-', 11);
    total = snprintf(text, 6, "%d apples", 12);
    printf("%d %s %c\n", total, text, text[6]);
    printf("%d\n", snprintf(NULL, 0, "%05d", 1));
    total = formatted(text, sizeof text, "%s-%x", "ab", 16u);
    printf("%d %s\n", total, text);
    total = sprintf(text, "%-4s|", "ab");
    printf("%d %s\n", total, text);
}

int main(void) {
    static_assert(CHAR_BIT == 8 && sizeof(uint64_t) == 8, "bytes have eight bits");
    show_searches();
    show_comparisons();
    show_copies();
    show_classes();
    show_numbers();
    show_sorting();
    show_memory();
    show_random();
    show_forms();
    show_buffers();
    putchar('[');
    for (int character; (character = getchar()) != EOF;)
        assert(putchar(character) == character);
    assert(getchar() == EOF);
    puts("]");
    return 3;
}
