/* The program sfi by the library: the words of the command line, standard input and output, and the status. */
#include "sfi_tool.h"
#include <stdio.h>
#include <stdlib.h>
#include <string.h>

int main(int count, char **words) {
    static uint8_t line[65536], input[1 << 24];
    size_t filled = 0, length, room = 1 << 16;
    words[0] = "sfi"; /* the name that usage texts say */
    for (int i = 0; i < count; i++) {
        size_t size = strlen(words[i]) + 1;
        if (size > sizeof line - filled)
            return 3;
        memcpy(line + filled, words[i], size);
        filled += size;
    }
    size_t given = fread(input, 1, sizeof input, stdin);
    for (;;) {
        uint8_t *output = malloc(room);
        if (!output)
            return 4;
        uint32_t status = sfi_tool_answer(line, filled, input, given, output, room, &length);
        if (length <= room) {
            int written = fwrite(output, 1, length, stdout) == length && !fflush(stdout);
            free(output);
            return written ? (int)status : 5;
        }
        free(output);
        room = length;
    }
}
