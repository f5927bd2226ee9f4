/* Prints what sfi_device_check and sfi_device_tell cost, and the longest section of the host in which no interrupt can
   come, from a trap of a sandbox to the next entry of one. In measured.o of measured.sh these stand before the
   checker's, which are called checker_check and checker_tell there. */
#include "checker.h"

#include "sections.h"

enum sfi_device_status checker_check(const uint8_t *image, uint32_t length, void (*between)(void *), void *host,
                                     struct sfi_verdict *verdict);
enum sfi_device_status checker_tell(const uint8_t *image, uint32_t length, uint32_t number, struct sfi_device_part *part);
extern uint8_t stack_bottom[];

enum { PAINT = 0xa5 };

static uint32_t retired(void) {
    uint32_t count;
    __asm__ volatile("rdinstret %0" : "=r"(count));
    return count;
}

static uint32_t used(const uint8_t *bottom, const uint8_t *top) {
    while (bottom < top && *bottom == PAINT)
        bottom++;
    return (uint32_t)top - (uint32_t)bottom;
}

static void item(const char *what, uint32_t number) {
    print(what);
    print_decimal(number);
}

static void print_cost(uint32_t instructions, const uint8_t *stack_before) {
    const uint8_t *stack = sfi_device_checker_memory.stack;
    item("checker: instructions=", instructions);
    item(" stack=", used(stack_bottom, stack_before));
    item(" module_stack=", used(stack, stack + MODULE_STACK));
    print("\n");
}

enum sfi_device_status sfi_device_check(const uint8_t *image, uint32_t length, void (*between)(void *), void *host,
                                        struct sfi_verdict *verdict) {
    uint8_t *stack_before = __builtin_frame_address(0);
    /* up to 128 bytes below, so that this call's own frame stays */
    memset(stack_bottom, PAINT, (uint32_t)stack_before - 128 - (uint32_t)stack_bottom);
    memset(sfi_device_checker_memory.stack, PAINT, MODULE_STACK);
    uint32_t before = retired();
    enum sfi_device_status status = checker_check(image, length, between, host, verdict);
    print_cost(retired() - before, stack_before);
    return status;
}

enum sfi_device_status sfi_device_tell(const uint8_t *image, uint32_t length, uint32_t number, struct sfi_device_part *part) {
    uint32_t before = retired();
    enum sfi_device_status status = checker_tell(image, length, number, part);
    uint32_t instructions = retired() - before;
    if (status == SFI_DEVICE_DONE) {
        item("checker: sandbox=", number);
        item(" gates=", part->gate_count);
        item(" instructions=", instructions);
        print("\n");
    }
    return status;
}

static uint32_t longest_masked;

static void note_section(uint32_t instructions) {
    if (instructions > longest_masked)
        longest_masked = instructions;
}

void print_masked(void) {
    item("host: longest masked section=", longest_masked);
    print("\n");
}
