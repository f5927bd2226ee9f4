// firmware.c in C++20, without exceptions, run-time types and constructors that run before main.
#include "board.h"

namespace {

constexpr uint32_t plugin_count = 2, rounds = 400, piece_size = 512;
constexpr uint32_t turn_ticks = 1000, trial_turns = 100, trial_starts = 2;

// The gates that a plug-in may have are of these services, by their numbers from 0 on.
sfi_device_service *const services[] = {sfi_device_exit, nullptr, nullptr, sfi_device_yield,
                                        sfi_device_report};
const sfi_device_firmware firmware = {
    .services = services, .service_count = 5, .interrupt_after = interrupt_after};

// A line for each version that comes or goes.
void tell_news(void *, uint32_t number, sfi_device_plugin_news news, uint32_t version) {
    switch (news) {
    case SFI_DEVICE_PLUGIN_STARTS: return tell(number, " starts ", version);
    case SFI_DEVICE_PLUGIN_IS_REFUSED: return tell(number, " refuses ", version);
    case SFI_DEVICE_PLUGIN_IS_KEPT: return tell(number, " keeps ", version);
    case SFI_DEVICE_PLUGIN_GAVE_UP: return tell(number, " gives up ", version);
    }
}

class Plugins {
public:
    sfi_device_status open();
    void run() { sfi_device_plugins_run(&all); }
    void take_update(uint32_t number);

private:
    void set_up(uint32_t number);
    sfi_device_store_status hand_on(uint32_t number, const update &update);

    uint32_t numbers[plugin_count] = {}; // is_signed asks for them
    sfi_device_plugin plugins[plugin_count] = {};
    sfi_device_plugins all = {
        .firmware = &firmware, .plugins = plugins, .count = plugin_count, .turn_ticks = turn_ticks,
        .trial_turns = trial_turns, .tells = tell_news};
};

// Where a plug-in lies, in flash and in memory.
void Plugins::set_up(uint32_t number) {
    const uint32_t flash = number * PLUGIN_FLASH;
    numbers[number] = number;
    plugins[number].store = {
        .flash = &cfi_flash, .host = &numbers[number], .records = flash,
        .areas = {flash + 2 * SECTOR, flash + 3 * SECTOR}, .area_size = SECTOR,
        .trial_starts = trial_starts, .is_signed = is_signed};
    plugins[number].place = {
        .code_base = CODE + number * CODE_STEP, .code_size = CODE_STEP,
        .data_base = DATA + number * DATA_STEP, .data_size = DATA_SIZE};
    plugins[number].image = reinterpret_cast<uint8_t *>(IMAGE + number * IMAGE_STEP);
}

sfi_device_status Plugins::open() {
    for (uint32_t number = 0; number < plugin_count; number++)
        set_up(number);
    return sfi_device_plugins_open(&all).status;
}

// Hands on an update in pieces, between which all plug-ins have turns.
sfi_device_store_status Plugins::hand_on(uint32_t number, const update &update) {
    const uint32_t length = update.claim.length;
    auto status = sfi_device_plugins_begin(&all, number, &update.claim, update.signature);
    for (uint32_t at = 0; status == SFI_DEVICE_STORE_DONE && at < length; at += piece_size) {
        const uint32_t left = length - at, piece = left < piece_size ? left : piece_size;
        run();
        status = sfi_device_plugins_write(&all, number, update.image + at, piece);
    }
    return status == SFI_DEVICE_STORE_DONE ? sfi_device_plugins_finish(&all, number) : status;
}

// Takes the next update, if one has come. Those from before the last reset are here again.
void Plugins::take_update(uint32_t number) {
    if (!sfi_device_plugins_may_update(&all, number))
        return;
    const update *const next = next_update(number);
    const auto status = next ? hand_on(number, *next) : SFI_DEVICE_STORE_DONE;
    if (status != SFI_DEVICE_STORE_DONE && status != SFI_DEVICE_STORE_TOO_OLD)
        tell(number, " takes no update: ", status);
}

constinit Plugins plugins;

} // namespace

extern "C" int main() {
    need(plugins.open() == SFI_DEVICE_DONE, "flash and memory are right");
    for (uint32_t round = 0; round < rounds; round++) { // a product's loop has no end
        plugins.run();
        for (uint32_t number = 0; number < plugin_count; number++)
            plugins.take_update(number);
    }
    power_off();
}
