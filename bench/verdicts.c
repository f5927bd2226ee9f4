/* A host of examples/device/mcu that runs nothing: it judges images that lie one after another at IMAGES, each after its
   length and at a multiple of 4, and prints a line for each, its status and the instructions of its verdict. A length of 0
   ends. For worst_verdict.py. */
#include "host.h"

enum { IMAGES = 0x81000000 };

void judge(void) {}

static uint32_t retired(void) {
    uint32_t count;
    __asm__ volatile("csrr %0, minstret" : "=r"(count));
    return count;
}

static uint32_t print_verdict_of(const uint8_t *image, uint32_t length) {
    struct sfi_verdict verdict = {0};
    uint32_t before = retired();
    enum sfi_device_status status = sfi_device_check(image, length, NULL, NULL, &verdict);
    uint32_t instructions = retired() - before;
    print_decimal(status == SFI_DEVICE_CHECKER_STOPPED ? SFI_NO_IMAGE : verdict.status);
    print(" ");
    print_decimal(instructions);
    print("\n");
    return length;
}

void run_host(void) {
    const uint32_t *at = (const uint32_t *)IMAGES;
    while (*at != 0)
        at += 1 + (print_verdict_of((const uint8_t *)(at + 1), *at) + 3) / 4;
    finish();
}
