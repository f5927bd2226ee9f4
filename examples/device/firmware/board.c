/* The serial line, the timer and the switch of QEMU's `virt` (hw/riscv/virt.c), how updates come, and what compilers call. */
#include "board.h"

enum {
    UART = 0x10000000, UART_STATUS = 0x10000005, UART_ROOM = 0x20,
    TIME = 0x0200bff8, TIMER_DUE = 0x02004000,
    SWITCH = 0x00100000, SWITCH_OFF = 0x5555,
    INBOXES = 2,
    CUT_AFTER = 0x80700000      /* QEMU loads how many writes of the flash there are before the power is cut */
};

static volatile uint8_t *byte_at(uint32_t address) {
    return (volatile uint8_t *)address;
}

static volatile uint32_t *word_at(uint32_t address) {
    return (volatile uint32_t *)address;
}

void print(const char *text) {
    for (; *text; text++) {
        while (!(*byte_at(UART_STATUS) & UART_ROOM)) {
        }
        *byte_at(UART) = (uint8_t)*text;
    }
}

void print_number(uint32_t number) {
    char digit[] = {(char)('0' + number % 10), 0};
    if (number >= 10)
        print_number(number / 10);
    print(digit);
}

/* The lower half first becomes its largest, so that no time between the old and the new one is set. */
void interrupt_after(uint32_t ticks) {
    uint32_t low, high;
    do {
        high = word_at(TIME)[1];
        low = word_at(TIME)[0];
    } while (high != word_at(TIME)[1]);
    uint64_t due = ((uint64_t)high << 32 | low) + ticks;
    word_at(TIMER_DUE)[0] = UINT32_MAX;
    word_at(TIMER_DUE)[1] = (uint32_t)(due >> 32);
    word_at(TIMER_DUE)[0] = (uint32_t)due;
}

void tell(uint32_t plugin, const char *what, uint32_t number) {
    print("plug-in ");
    print_number(plugin);
    print(what);
    print_number(number);
    print("\n");
}

void need(bool is_right, const char *what) {
    if (is_right)
        return;
    print("not so: ");
    print(what);
    print("\n");
    power_off();
}

static uint32_t writes;

_Noreturn void power_off(void) {
    print("off after ");
    print_number(writes);
    print(" writes\n");
    for (;;)
        *word_at(SWITCH) = SWITCH_OFF;
}

/* Of cfi_flash.c: the power is cut before this write, where a test asks for that. */
void count_write(void) {
    if (writes == *word_at(CUT_AFTER))
        power_off();
    writes++;
}

const struct update *next_update(uint32_t plugin) {
    static uint32_t taken[INBOXES];
    const struct update *update = (const struct update *)(INBOX + plugin * INBOX_STEP + taken[plugin]);
    if (update->claim.length == 0)
        return NULL;
    taken[plugin] += (uint32_t)sizeof *update + (update->claim.length + 3) / 4 * 4;
    return update;
}

bool is_signed(void *host, const struct sfi_device_claim *claim, const uint8_t *signature) {
    static const uint8_t key[] = "the vendor's";
    uint8_t digest[SFI_DEVICE_DIGEST_SIZE];
    struct sfi_device_sha256 hash;
    sfi_device_sha256_begin(&hash);
    sfi_device_sha256_add(&hash, key, sizeof key - 1);
    sfi_device_sha256_add(&hash, host, sizeof(uint32_t));
    sfi_device_sha256_add(&hash, (const uint8_t *)claim, sizeof *claim);
    sfi_device_sha256_end(&hash, digest);
    return sfi_device_are_same(digest, signature, sizeof digest);
}

/* What compilers call by themselves, and the library asks for. */
void *memset(void *to, int byte, size_t length) {
    for (uint8_t *at = to; length > 0; length--)
        *at++ = (uint8_t)byte;
    return to;
}

void *memcpy(void *to, const void *from, size_t length) {
    const uint8_t *source = from;
    for (uint8_t *at = to; length > 0; length--)
        *at++ = *source++;
    return to;
}
