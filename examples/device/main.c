/* Runs the sandboxes of an accepted image natively, beside this host, in its address space and its
   privilege. It trusts the checker: docs/DEVICE.md says for what. */
#include "host.h"

static struct world world;
struct sfi_device_sv32 space;

extern uint8_t window[]; /* aligned to its size; after it is the pool of pages, up to ARGUMENTS */
extern uint8_t stack_top[]; /* the end of the host's own memory */

static void map_host(void) {
    if (!sfi_device_sv32_map_host(&space, RAM, UART) || !sfi_device_sv32_map_device(&space, UART, UART_DEVICE) ||
        !sfi_device_sv32_map_device(&space, FINISHER, FINISHER_DEVICE))
        refuse("there is no room for the host");
}

/* start.S calls this in M-mode, before there is a page table. Answers what satp takes. */
uint32_t load(void) {
    uint32_t satp;
    space = (struct sfi_device_sv32){RAM, HOST_END, window, window + SFI_DEVICE_SV32_WINDOW, (uint8_t *)ARGUMENTS, 0};
    read_image(&world, ARGUMENTS, IMAGE, INPUT);
    for (uint32_t number = 0; number < world.count; number++)
        refuse_fault(number, sfi_device_sv32_map(&space, &world.plugins[number].sandbox.part));
    if (put_springboards)
        put_springboards(&world);
    map_host();
    refuse_fault(0, sfi_device_sv32_finish(&space, &satp));
    return satp;
}

static uint32_t host_address(uint32_t data_address) {
    return (uint32_t)sfi_device_sv32_at(&space, data_address);
}

/* Of the window the host can read the data regions alone. Code lies in pages of the pool. */
void test_mirrors(uint32_t number, const struct sfi_device_part *part) {
    uint32_t pool = (uint32_t)window + SFI_DEVICE_SV32_WINDOW;
    const struct sfi_device_span spans[] = {
        {RAM, (uint32_t)stack_top - RAM}, {pool, (uint32_t)space.pool - pool}, {IMAGE, world.arguments->image_length}
    };
    refuse_fault(number, sfi_device_try_mirrors(part, spans, sizeof spans / sizeof spans[0], host_address));
}

static uint64_t now(void) {
    uint32_t low, high, again;
    do
        __asm__ volatile("rdtimeh %0\n rdtime %1\n rdtimeh %2"
                         : "=r"(high), "=r"(low), "=r"(again));
    while (high != again);
    return (uint64_t)high << 32 | low;
}

/* The lower half first becomes its largest, so that no time between the old and the new
   one is set. */
static void interrupt_at(uint64_t time) {
    __asm__ volatile("csrw %2, %3\n csrw %1, %4\n csrw %2, %0" ::
        "r"((uint32_t)time), "i"(STIMECMPH), "i"(STIMECMP), "r"(-1), "r"((uint32_t)(time >> 32)));
}

void interrupt_after(uint32_t ticks) {
    interrupt_at(now() + ticks);
}

/* start.S comes here in S-mode, once there is a page table. */
void run_host(void) {
    console_is_paged();
    test_guards(&world);
    for (uint32_t number = 0; number < world.count; number++)
        test_mirrors(number, &world.plugins[number].sandbox.part);
    run_world(&world);
}
