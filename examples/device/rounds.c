/* Rounds: each sandbox that is ready gets one turn in each. */
#include "host.h"

void turn(struct world *world, uint32_t number) {
    sfi_device_turn(&world->firmware, &world->plugins[number].sandbox, world->arguments->turn_ticks);
}

/* One turn for each sandbox that is ready. Answers whether there was one. */
static bool run_round(struct world *world) {
    bool any = false;
    for (uint32_t number = 0; number < world->count; number++)
        if (world->plugins[number].sandbox.state == SFI_DEVICE_READY) {
            turn(world, number);
            any = true;
        }
    return any;
}

static void run_rounds(struct world *world) {
    for (uint32_t round = 0; round < world->arguments->rounds; round++)
        if (!run_round(world))
            break;
}

static void enter_as_asked(struct world *world) {
    const struct arguments *asked = world->arguments;
    struct plugin *plugins = world->plugins;
    if (asked->entered >= world->count ||
        !sfi_device_enter_again(&plugins[asked->entered].sandbox, asked->entry_pc, asked->entry_arguments))
        refuse("--enter: there is no such sandbox, or it hasn't stopped, or no bundle or word begins there");
    plugins[asked->entered].moved = 0;
}

void run_world(struct world *world) {
    start_interrupts();
    run_rounds(world);
    if (world->arguments->enters) {
        enter_as_asked(world);
        run_rounds(world);
    }
    print_world(world);
    finish();
}
