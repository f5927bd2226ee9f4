/* Runs the sandboxes of an accepted image on a chip without paging, beside this host in M-mode. It trusts
   the checker: docs/DEVICE.md says for what. A vendor's own main has other files in the place of this one
   (MAIN of Makefile). */
#include "../host.h"

static struct world world;

void judge(void) {
    read_image(&world, FLASH_ARGUMENTS, FLASH_IMAGE, FLASH_INPUT);
}

void run_host(void) {
    for (uint32_t number = 0; number < world.count; number++)
        place(number, &world.plugins[number].sandbox.part);
    refuse_fault(0, sfi_device_write_protection());
    __asm__ volatile("fence.i" ::: "memory"); /* whoever wrote the code into the flash need not have done it */
    test_guards(&world);
    run_world(&world);
}
