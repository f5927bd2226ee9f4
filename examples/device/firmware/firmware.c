/* A firmware with two plug-ins, each from an image of its own, whose updates survive cuts of power:
   docs/DEVICE.md. A version is kept once it calls `report`; one that isn't accepted, stops before
   that, or takes too long, gives way to the one before it. */
#include "board.h"

enum { PLUGINS = 2, ROUNDS = 400, PIECE = 512 };
enum { TURN_TICKS = 1000, TRIAL_TURNS = 100, TRIAL_STARTS = 2 };

/* The gates that a plug-in may have are of these services. */
static sfi_device_service *const services[] = {
    [0] = sfi_device_exit, [3] = sfi_device_yield, [4] = sfi_device_report};
static const struct sfi_device_firmware firmware = {
    .services = services, .service_count = 5, .interrupt_after = interrupt_after};

/* A line for each version that comes or goes. */
static void tell_news(void *host, uint32_t number, enum sfi_device_plugin_news news,
                      uint32_t version) {
    static const char *const words[] = {
        [SFI_DEVICE_PLUGIN_STARTS] = " starts ", [SFI_DEVICE_PLUGIN_IS_REFUSED] = " refuses ",
        [SFI_DEVICE_PLUGIN_IS_KEPT] = " keeps ", [SFI_DEVICE_PLUGIN_GAVE_UP] = " gives up "};
    (void)host;
    tell(number, words[news], version);
}

static struct sfi_device_plugin plugins[PLUGINS];
static struct sfi_device_plugins all = {
    .firmware = &firmware, .plugins = plugins, .count = PLUGINS, .turn_ticks = TURN_TICKS,
    .trial_turns = TRIAL_TURNS, .tells = tell_news};

/* Where a plug-in lies, in flash and in memory. */
static void set_up(uint32_t number) {
    static uint32_t numbers[PLUGINS]; /* is_signed asks for them */
    uint32_t flash = number * PLUGIN_FLASH;
    numbers[number] = number;
    plugins[number].store = (struct sfi_device_store){
        .flash = &cfi_flash, .host = &numbers[number], .is_signed = is_signed,
        .records = flash, .areas = {flash + 2 * SECTOR, flash + 3 * SECTOR}, .area_size = SECTOR,
        .trial_starts = TRIAL_STARTS};
    plugins[number].place = (struct sfi_device_place){
        .code_base = CODE + number * CODE_STEP, .code_size = CODE_STEP,
        .data_base = DATA + number * DATA_STEP, .data_size = DATA_SIZE};
    plugins[number].image = (uint8_t *)(IMAGE + number * IMAGE_STEP);
}

/* Hands on an update in pieces, between which all plug-ins have turns. */
static enum sfi_device_store_status hand_on(uint32_t number, const struct update *update) {
    const struct sfi_device_claim *claim = &update->claim;
    enum sfi_device_store_status status =
        sfi_device_plugins_begin(&all, number, claim, update->signature);
    for (uint32_t at = 0; status == SFI_DEVICE_STORE_DONE && at < claim->length; at += PIECE) {
        uint32_t left = claim->length - at, piece = left < PIECE ? left : PIECE;
        sfi_device_plugins_run(&all);
        status = sfi_device_plugins_write(&all, number, update->image + at, piece);
    }
    if (status == SFI_DEVICE_STORE_DONE)
        status = sfi_device_plugins_finish(&all, number);
    return status;
}

/* Takes the next update, if one has come. Those from before the last reset are here again. */
static void take_update(uint32_t number) {
    const struct update *update = next_update(number);
    if (update == NULL)
        return;
    enum sfi_device_store_status status = hand_on(number, update);
    if (status != SFI_DEVICE_STORE_DONE && status != SFI_DEVICE_STORE_TOO_OLD)
        tell(number, " takes no update: ", status);
}

int main(void) {
    for (uint32_t number = 0; number < PLUGINS; number++)
        set_up(number);
    need(sfi_device_plugins_open(&all).status == SFI_DEVICE_DONE, "flash and memory are right");
    for (uint32_t round = 0; round < ROUNDS; round++) { /* a product's loop has no end */
        sfi_device_plugins_run(&all);
        for (uint32_t number = 0; number < PLUGINS; number++)
            if (sfi_device_plugins_may_update(&all, number))
                take_update(number);
    }
    power_off();
}
