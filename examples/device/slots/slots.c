/* Where the four slots are on a chip, and its watchdog. */
#include "slots.h"

static const struct arguments asked = {.turn_ticks = TURN_TICKS / 100};
struct world world;
static struct sfi_device_slot places[SLOTS];
static struct sfi_slot decided[SLOTS];
uint32_t longest_unfed, fed_between_pieces;

_Static_assert(SLOTS <= SANDBOXES_MOST, "chip.h");
_Static_assert(CHECKER_RAM >= HOST_RAM, "chip.h: the checker's memory is where sandboxes' data are");
_Static_assert(FLASH_CODE % SLOT_CODE == 0 && FLASH_ARGUMENTS - FLASH_CODE >= 2 * (SLOTS + 1) * SLOT_CODE, "chip.h");
_Static_assert(FLASH_IMAGE + SLOTS * SFI_DEVICE_VERSIONS * IMAGE_MOST <= FLASH_INPUT, "chip.h");

/* ---- The watchdog: a vendor stores to it here. QEMU's chips have none: how long it wasn't fed is counted */

static uint32_t retired(void) {
    uint32_t count;
    __asm__ volatile("csrr %0, minstret" : "=r"(count));
    return count;
}

void feed_watchdog(void) {
    static uint32_t fed_at;
    uint32_t unfed = retired() - fed_at;
    if (fed_at != 0 && unfed > longest_unfed)
        longest_unfed = unfed;
    fed_at = retired();
}

static void feed_between_pieces(void) {
    feed_watchdog();
    fed_between_pieces++;
}

/* ---- Slots. The chips of this host have memory that holds code: a vendor programs a flash here */

static void write_code(uint32_t address, const uint8_t *bytes, uint32_t length) {
    memcpy((uint8_t *)CODE_AS_DATA(address), bytes, length);
}

static void empty_plugin(uint32_t number) {
    empty(&world.plugins[number]);
}

const struct sfi_device_slots slots = {
    .firmware = &world.firmware, .slots = places, .decided = decided, .count = SLOTS, .data_size = SLOT_DATA, .code_from = FLASH_CODE,
    .code_to = FLASH_ARGUMENTS, .trial_turns = TRIAL_TURNS, .turn_ticks = TURN_TICKS / 100, .write_code = write_code,
    .between_pieces = feed_between_pieces, .emptied = empty_plugin, .tells = tell_news
};

static void make_slot(uint32_t number) {
    struct sfi_device_slot *slot = &places[number];
    slot->sandbox = &world.plugins[number].sandbox;
    slot->data_base = CHIP_RAM + number * (SLOT_DATA + 2 * SFI_DEVICE_GUARD_ZONE);
    /* The first places are left to images that name theirs themselves. */
    slot->moved_to = FLASH_CODE + (FLASH_ARGUMENTS - FLASH_CODE) / SLOT_CODE / 2 * SLOT_CODE + number * SLOT_CODE;
    for (uint32_t version = 0; version < SFI_DEVICE_VERSIONS; version++)
        slot->images[version] = (uint8_t *)(FLASH_IMAGE + (number * SFI_DEVICE_VERSIONS + version) * IMAGE_MOST);
}

/* The locked entries hold until the next reset, so each slot's data have one place. */
void start_slots(void) {
    start_world(&world, &asked);
    world.count = SLOTS;
    for (uint32_t number = 0; number < SLOTS; number++) {
        struct sfi_device_part *part = &world.plugins[number].sandbox.part;
        make_slot(number);
        *part = (struct sfi_device_part){.data_base = places[number].data_base, .data_size = SLOT_DATA};
        test_mirrors(number, part);
        refuse_fault(number, sfi_device_close_guards(number, part));
    }
    refuse_fault(0, sfi_device_write_protection());
    test_guards(&world);
    sfi_device_clear_slots(&slots);
}
