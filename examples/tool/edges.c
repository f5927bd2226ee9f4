/* Tries the sentences of sfi_tool.h: a text that doesn't fit, words that are none, and what stays. */
#include "sfi_tool.h"
#include <stdio.h>
#include <string.h>

static int failed;

static void expect(const char *what, int is_so) {
    if (!is_so) {
        printf("FAILED %s\n", what);
        failed = 1;
    }
}

static uint8_t output[64];
static size_t length;

/* Answers words, given as a literal with a zero byte behind each word, on an input of one byte. */
static uint32_t answer(const char *words, size_t size, size_t room) {
    static const uint8_t input[1] = {'z'};
    memset(output, '#', sizeof output);
    length = 77;
    return sfi_tool_answer((const uint8_t *)words, size, input, sizeof input, output, room, &length);
}

#define ANSWER(words, room) answer(words, sizeof words - 1, room)

int main(void) {
    static const char fault[] = "input fault hex odd\n"; /* an odd number of digits goes first */
    const size_t whole = sizeof fault - 1;
    expect("a text that fits", ANSWER("sfi\0check\0", 64) == SFI_TOOL_FAULT && length == whole && !memcmp(output, fault, whole));
    expect("what lies behind it stays", output[whole] == '#' && output[63] == '#');
    expect("a text cut short", ANSWER("sfi\0check\0", 5) == SFI_TOOL_FAULT && length == whole && !memcmp(output, fault, 5));
    expect("what lies behind that stays", output[5] == '#');
    expect("no room at all", ANSWER("sfi\0check\0", 0) == SFI_TOOL_FAULT && length == whole && output[0] == '#');
    expect("a word without its end", ANSWER("sfi\0check", 64) == SFI_TOOL_USAGE && length > 0);
    expect("a word that isn't UTF-8", ANSWER("sfi\0\xff\0", 64) == SFI_TOOL_USAGE && length > 0);
    expect("no words", ANSWER("", 64) == SFI_TOOL_USAGE && length > 0);
    expect("a command and another word", ANSWER("sfi\0check\0too\0", 64) == SFI_TOOL_USAGE && length > 0);
    expect("--input that spells no bytes", ANSWER("sfi\0run\0--input\0zz\0", 64) == SFI_TOOL_FAULT);
    return failed;
}
