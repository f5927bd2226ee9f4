/* Not a firmware to copy: it calls the library as none should, with what isn't there, meets, is too long or comes too early. Each
   call has to answer; what was accepted before is told after. The first plug-in's inbox has an image for its place. */
#include "board.h"
#include "sfi_device_slots.h"

static struct sfi_device_plugin plugins[2];
static const struct sfi_device_firmware firmware = {.interrupt_after = interrupt_after};
static struct sfi_device_plugins all = {.firmware = &firmware, .plugins = plugins, .count = 2, .turn_ticks = 1000, .trial_turns = 1};
static uint32_t right;

static void expect(uint32_t answer, uint32_t wanted, const char *what) {
    if (answer == wanted) {
        right++;
        return;
    }
    print(what);
    print(": ");
    print_number(answer);
    print("\n");
}

/* ---- The checker */

/* What the image's check says, and what is said within it. */
struct within {
    const uint8_t *image;
    uint32_t length, pieces;
    struct sfi_device_part part;
};

static void call_within(void *host) {
    struct within *it = host;
    struct sfi_verdict verdict;
    if (it->pieces++ > 0)
        return;
    expect(sfi_device_check(it->image, it->length, NULL, NULL, &verdict), SFI_DEVICE_BUSY, "a check within a check");
    expect(sfi_device_are_apart(&it->part, &it->part), false, "are_apart within a check");
    expect(sfi_device_tell(it->image, it->length, 0, &it->part), SFI_DEVICE_NOT_ACCEPTED, "tell within a check");
}

static void misuse_checker(const uint8_t *image, uint32_t length) {
    struct within it = {image, length, 0, {0}};
    struct sfi_verdict verdict;
    extern uint8_t sfi_device_checker_memory[];
    expect(sfi_device_tell(image, length, 0, &it.part), SFI_DEVICE_NOT_ACCEPTED, "tell before a check");
    expect(sfi_device_are_apart(&it.part, &it.part), false, "are_apart before a check");
    expect(sfi_device_check(image, length, call_within, &it, &verdict), SFI_DEVICE_DONE, "a check in which others are called");
    expect(sfi_device_check(NULL, 0, NULL, NULL, &verdict), SFI_DEVICE_NOT_ACCEPTED, "no bytes");
    expect(sfi_device_check(NULL, 100, NULL, NULL, &verdict), SFI_DEVICE_CHECKER_STOPPED, "bytes that aren't there");
    expect(sfi_device_check(image, UINT32_MAX, NULL, NULL, &verdict), SFI_DEVICE_CHECKER_STOPPED, "bytes beyond the addresses");
    expect(sfi_device_check(sfi_device_checker_memory, 100, NULL, NULL, &verdict), SFI_DEVICE_CHECKER_STOPPED, "the checker's memory");
    expect(sfi_device_check(image, length, NULL, NULL, NULL), SFI_DEVICE_CHECKER_STOPPED, "no verdict");
    expect(sfi_device_check(image, length, NULL, NULL, &verdict), SFI_DEVICE_DONE, "a check");
    expect(sfi_device_tell(image, length, 1, &it.part), SFI_DEVICE_NO_SANDBOX, "a second sandbox");
    expect(sfi_device_tell(image, length, UINT32_MAX, &it.part), SFI_DEVICE_NO_SANDBOX, "the last sandbox");
    expect(sfi_device_tell(image, 0, 0, &it.part), SFI_DEVICE_NOT_ACCEPTED, "tell of no bytes");
    expect(sfi_device_tell(image, length, 0, &it.part), SFI_DEVICE_DONE, "tell");
    expect(sfi_device_are_apart(&it.part, &it.part), false, "a sandbox apart from itself");
}

/* ---- Sandboxes and protection */

static void misuse_sandboxes(void) {
    static struct sfi_device_sandbox sandbox;
    const struct sfi_device_part none = {0}, low = {.data_base = 2048, .data_size = 2048}, odd = {.data_base = DATA + 256, .data_size = 4096};
    const struct sfi_device_part high = {.data_base = 0xfffff000, .data_size = 4096};
    sfi_device_turn(&firmware, &sandbox, 0);
    expect(sandbox.state, SFI_DEVICE_EMPTY, "a turn of no sandbox");
    expect(sfi_device_enter_again(&sandbox, 0, NULL), false, "no sandbox is entered again");
    expect(sfi_device_own_bytes(&sandbox, UINT32_MAX, UINT32_MAX) == NULL, true, "all bytes of no sandbox");
    expect(sfi_device_close_guards(0, &none).status, SFI_DEVICE_BAD_PLACE, "guards of no data");
    expect(sfi_device_close_guards(0, &low).status, SFI_DEVICE_BAD_PLACE, "guards below the addresses");
    expect(sfi_device_close_guards(0, &high).status, SFI_DEVICE_BAD_PLACE, "guards above the addresses");
    expect(sfi_device_close_guards(0, &odd).status, SFI_DEVICE_BAD_PLACE, "guards of data that no entry opens");
    expect(sfi_device_close_guards(UINT32_MAX, &none).status, SFI_DEVICE_NO_ENTRY, "guards of the last sandbox");
    expect(sfi_device_protect(UINT32_MAX, 0, 0), SFI_DEVICE_NO_ENTRY, "the last entry");
}

/* ---- Slots: here there is none, so moving.o's decisions aren't asked for */

__asm__(".irp decision, clear, begin, accept, refuse, try, place, write, turn, confirm, roll_back, remove, may_enter\n"
        ".globl sfi_device_slots_\\decision\n"
        "sfi_device_slots_\\decision:\n"
        ".endr\n"
        ".globl sfi_device_move\n"
        "sfi_device_move: li a0, 0\n"
        "ret\n");

static void misuse_slots(void) {
    const struct sfi_device_slots none = {0};
    struct sfi_verdict verdict;
    enum sfi_device_status status;
    sfi_device_clear_slots(&none);
    sfi_device_run_slots(&none);
    expect(sfi_device_free_slot(&none), 0, "the free slot of none");
    expect(sfi_device_current(&none, 0) == NULL, true, "the version of no slot");
    expect(sfi_device_begin_update(&none, 0) == NULL, true, "an update of no slot begins");
    expect(sfi_device_end_update(&none, UINT32_MAX, 0, false, &status, &verdict), SFI_DEVICE_NOT_BEGUN, "an update of no slot");
    expect(sfi_device_start_slot(&none, 0) || sfi_device_confirm_slot(&none, 0) || sfi_device_kill_slot(&none, 0) ||
           sfi_device_call_slot(&none, 0, 0, NULL) || sfi_device_remove_slot(&none, 0), false, "calls of no slot");
}

/* ---- Plug-ins */

/* A flash that calls the library while it erases. */
static bool erase_and_call(void *host, uint32_t address) {
    sfi_device_plugins_run(&all);
    expect(sfi_device_plugins_may_update(&all, 1), false, "an update within a call");
    expect(sfi_device_plugins_finish(&all, 1), SFI_DEVICE_STORE_TOO_EARLY, "finish within a call");
    expect(sfi_device_plugins_open(&all).status, SFI_DEVICE_BUSY, "open within a call");
    return cfi_flash.erase_sector(host, address);
}

static void set_up(uint32_t number) {
    static struct sfi_device_flash flash;
    flash = cfi_flash;
    flash.erase_sector = erase_and_call;
    plugins[number] = (struct sfi_device_plugin){
        .store = {.flash = &flash, .records = number * PLUGIN_FLASH, .area_size = SECTOR, .trial_starts = 1,
                  .areas = {number * PLUGIN_FLASH + 2 * SECTOR, number * PLUGIN_FLASH + 3 * SECTOR}},
        .place = {CODE + number * CODE_STEP, CODE_STEP, DATA + number * DATA_STEP, DATA_SIZE},
        .image = (uint8_t *)(IMAGE + number * IMAGE_STEP)};
}

static void expect_fault(enum sfi_device_status wanted, const char *what) {
    struct sfi_device_fault fault = sfi_device_plugins_open(&all);
    expect(fault.status, wanted, what);
    expect(fault.other, 1, what);
    expect(sfi_device_plugins_begin(&all, 0, &plugins[0].store.update.claim, NULL), SFI_DEVICE_STORE_TOO_EARLY, "begin before open");
    sfi_device_plugins_run(&all);
    set_up(1);
}

static void misuse_plugins(const struct update *update) {
    set_up(0);
    set_up(1);
    plugins[1].place.data_base = DATA + DATA_SIZE;
    expect_fault(SFI_DEVICE_BAD_PLACE, "data in another's guard zone");
    plugins[1].place.code_base = DATA;
    expect_fault(SFI_DEVICE_BAD_PLACE, "code in another's data");
    plugins[1].image = (uint8_t *)(CODE + CODE_STEP - 1);
    expect_fault(SFI_DEVICE_BAD_PLACE, "an image in another's code");
    plugins[1].image = NULL;
    expect_fault(SFI_DEVICE_BAD_PLACE, "no memory for an image");
    plugins[1].place.code_size = UINT32_MAX;
    expect_fault(SFI_DEVICE_BAD_PLACE, "code beyond the addresses");
    plugins[1].store.area_size = 1;
    expect_fault(SFI_DEVICE_BAD_STORE, "areas that are no sectors");
    expect(sfi_device_plugins_open(&all).status, SFI_DEVICE_DONE, "open");
    expect(sfi_device_plugins_may_update(&all, 2), false, "an update of no plug-in");
    expect(sfi_device_plugins_write(&all, UINT32_MAX, NULL, 0), SFI_DEVICE_STORE_TOO_EARLY, "bytes for no plug-in");
    expect(sfi_device_plugins_write(&all, 0, NULL, 0), SFI_DEVICE_STORE_TOO_EARLY, "bytes before begin");
    expect(sfi_device_plugins_finish(&all, 0), SFI_DEVICE_STORE_TOO_EARLY, "finish before begin");
    expect(sfi_device_plugins_begin(&all, 0, &update->claim, NULL), SFI_DEVICE_STORE_DONE, "begin");
    expect(sfi_device_plugins_write(&all, 0, update->image, 0), SFI_DEVICE_STORE_DONE, "no bytes");
    expect(sfi_device_plugins_write(&all, 0, update->image, UINT32_MAX), SFI_DEVICE_STORE_WRONG_LENGTH, "all bytes there are");
    expect(sfi_device_plugins_finish(&all, 0), SFI_DEVICE_STORE_TOO_EARLY, "finish after too many");
}

int main(void) {
    const struct update *update = next_update(0);
    misuse_checker(update->image, update->claim.length);
    misuse_sandboxes();
    misuse_slots();
    misuse_plugins(update);
    print_number(right);
    print(" right\n");
    power_off();
}
