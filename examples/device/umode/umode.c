/* The other way to keep plug-ins from a host, to compare with: they run in U-mode, and physical memory protection
   opens their own regions alone. What they are made of isn't checked. */
#include "../host.h"

static struct world world;

void judge(void) {
    read_image(&world, FLASH_ARGUMENTS, FLASH_IMAGE, FLASH_INPUT);
}

/* In U-mode what no entry opens is closed. No entry is locked: each sandbox that has a turn has both. */
static void open_regions(const struct sfi_device_part *part) {
    uint32_t code = sfi_device_power_of_two(part->code_base, part->code_size) >> 2;
    uint32_t data = sfi_device_power_of_two(part->data_base, part->data_size) >> 2;
    uint32_t rights = (PMP_NAPOT | PMP_X) | (PMP_NAPOT | PMP_R | PMP_W) << 8;
    __asm__ volatile("csrw pmpaddr0, %0\n csrw pmpaddr1, %1\n csrw pmpcfg0, %2" ::"r"(code), "r"(data), "r"(rights));
}

static void place_in_user_mode(const struct sfi_device_part *part) {
    memset((uint8_t *)part->data_base, 0, part->data_size);
    memcpy((uint8_t *)part->data_base, part->first, part->first_count);
}

static bool run_round(void) {
    bool any = false;
    for (uint32_t number = 0; number < world.count; number++)
        if (world.plugins[number].sandbox.state == SFI_DEVICE_READY) {
            open_regions(&world.plugins[number].sandbox.part);
            turn(&world, number);
            any = true;
        }
    return any;
}

void run_host(void) {
    for (uint32_t number = 0; number < world.count; number++)
        place_in_user_mode(&world.plugins[number].sandbox.part);
    __asm__ volatile("fence.i");
    start_interrupts();
    for (uint32_t round = 0; round < world.arguments->rounds && run_round(); round++) {
    }
    print_world(&world);
    finish();
}
