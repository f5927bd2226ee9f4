/* Runs the sandboxes of an image with the services of the console (docs/GATES.md), and prints what `sfi run` prints.
 *
 *     console IMAGE [ROUNDS [QUANTUM [INPUT]]]     # IMAGE holds the image's own bytes, INPUT is hexadecimal
 */
#include "host.h"
#include <inttypes.h>

static void print_line(struct sfi_run_console *console, struct sfi_run_world *world, uint32_t i) {
    static const char *const causes[] = {"", "Fetch", "Illegal", "Break", "Load", "Store"};
    struct sfi_run_event event;
    uint8_t byte;
    printf("sandbox=%" PRIu32, i);
    switch (sfi_run_event(world, i, &event)) {
    case SFI_RUN_EXITED: printf(" exit=%" PRIu32, event.number); break;
    case SFI_RUN_TRAPPED: printf(" trap=%s at=%08" PRIx32, causes[event.number], event.a0); break;
    default: printf(" ready");
    }
    printf(" steps=%" PRIu64 " out=", sfi_run_steps(world, i));
    for (size_t k = 0; sfi_run_console_read(console, i, k, &byte, 1); k++)
        printf("%02x", byte);
    printf("\n");
}

int main(int count, char **words) {
    static uint8_t input[1 << 16];
    struct sfi_run_world world = SFI_RUN_NO_WORLD;
    struct sfi_run_console console = SFI_RUN_NO_CONSOLE;
    size_t given = 0;
    if (count < 2)
        return 3;
    load_file(words[1], &world);
    long rounds = count > 2 ? atol(words[2]) : 1, quantum = count > 3 ? atol(words[3]) : 1000;
    for (const char *digits = count > 4 ? words[4] : ""; given < sizeof input && sscanf(digits, "%2hhx", &input[given]) == 1; given++)
        digits += 2;
    uint32_t sandboxes = (uint32_t)sfi_run_count(&world);
    bool is_done = sfi_run_console_new(sandboxes, input, given, &console);
    for (; is_done && rounds > 0; rounds--)
        for (uint32_t i = 0; is_done && i < sandboxes; i++)
            is_done = sfi_run_console_turn(&console, &world, i, (uint32_t)quantum);
    for (uint32_t i = 0; i < sandboxes; i++)
        print_line(&console, &world, i);
    sfi_run_console_free(&console);
    sfi_run_free(&world);
    return is_done ? 0 : 4;
}
