/* Plug-ins from flash: what their stores choose is judged, placed and run. */
#include "sfi_device_plugins.h"

#include "internal.h"

enum sfi_device_outcome sfi_device_report(void *host, struct sfi_device_sandbox *caller, struct sfi_device_call *call) {
    (void)host, (void)call;
    caller->has_reported = true;
    return SFI_DEVICE_REPLIED;
}

/* ---- Places */

/* Addresses of a plug-in: its code, its data with their guard zones, and its image. */
struct span {
    uint64_t from, to;
};
enum { SPANS = 3 };

static struct span span_of(const struct sfi_device_plugins *all, uint32_t index) {
    const struct sfi_device_plugin *plugin = &all->plugins[index / SPANS];
    const struct sfi_device_place *place = &plugin->place;
    uint64_t data_end = (uint64_t)place->data_base + place->data_size, image = (uint32_t)plugin->image;
    if (index % SPANS == 0)
        return (struct span){place->code_base, (uint64_t)place->code_base + place->code_size};
    if (index % SPANS == 1)
        return (struct span){(uint64_t)place->data_base - SFI_DEVICE_GUARD_ZONE, data_end + SFI_DEVICE_GUARD_ZONE};
    return (struct span){image, image + plugin->store.area_size};
}

static bool is_apart_from_those_before(const struct sfi_device_plugins *all, uint32_t index) {
    struct span one = span_of(all, index);
    for (uint32_t before = 0; before < index; before++) {
        struct span other = span_of(all, before);
        if (one.from < other.to && other.from < one.to)
            return false;
    }
    return true;
}

static bool has_place(const struct sfi_device_plugins *all, uint32_t number) {
    const struct sfi_device_plugin *plugin = &all->plugins[number];
    if (plugin->image == NULL || plugin->place.code_size == 0 || !sfi_device_is_data(plugin->place.data_base, plugin->place.data_size))
        return false;
    bool are_apart = true;
    for (uint32_t index = SPANS * number; index < SPANS * (number + 1); index++)
        are_apart = are_apart && span_of(all, index).to <= (uint64_t)UINT32_MAX + 1 && is_apart_from_those_before(all, index);
    return are_apart;
}

/* What ports are told before there is a version: the format is the first, of which they ask the least. */
static struct sfi_device_part part_of(const struct sfi_device_place *place) {
    return (struct sfi_device_part){.format = SFI_DEVICE_FORMAT_1, .code_base = place->code_base, .code_size = place->code_size,
                                    .data_base = place->data_base, .data_size = place->data_size};
}

/* ---- Turns */

static void run_turn(const struct sfi_device_plugins *all, struct sfi_device_plugin *plugin) {
    if (plugin->sandbox.state != SFI_DEVICE_READY)
        return;
    sfi_device_turn(all->firmware, &plugin->sandbox, all->turn_ticks);
    if (!plugin->is_kept)
        plugin->turns++;
}

static void run_turns(const struct sfi_device_plugins *all) {
    if (all->feed)
        all->feed(all->firmware->host);
    for (uint32_t number = 0; number < all->count; number++)
        run_turn(all, &all->plugins[number]);
}

static void between_pieces(void *host) {
    run_turns(host);
}

/* ---- Starting */

static bool lies_in(const struct sfi_device_part *part, const struct sfi_device_place *place) {
    return part->code_base == place->code_base && part->code_size <= place->code_size &&
           part->data_base == place->data_base && part->data_size == place->data_size;
}

/* Whether the area's image, in memory then, is accepted, and is one sandbox, in its plug-in's place, and not in the fourth format: nobody
   compares places with zones at zero. */
static bool accept(struct sfi_device_plugins *all, uint32_t number, uint32_t area, struct sfi_device_part *part) {
    const struct sfi_device_plugin *plugin = &all->plugins[number];
    const struct sfi_device_store *store = &plugin->store;
    uint32_t length = store->record.versions[area].claim.length; /* at most area_size: else it isn't chosen */
    struct sfi_verdict verdict;
    return store->flash->read(store->host, store->areas[area], plugin->image, length) &&
           sfi_device_check(plugin->image, length, between_pieces, all, &verdict) == SFI_DEVICE_DONE && verdict.sandboxes == 1 &&
           sfi_device_tell(plugin->image, length, 0, part) == SFI_DEVICE_DONE && lies_in(part, &plugin->place) &&
           part->format != SFI_DEVICE_FORMAT_OF_SINGLE_MASKS &&
           sfi_device_close_guards(number, part).status == SFI_DEVICE_DONE; /* a port may ask for a format */
}

/* Writes its code and first data. */
static bool put(const struct sfi_device_plugins *all, const struct sfi_device_part *part) {
    if (all->write_code)
        all->write_code(part->code_base, part->code, part->code_size);
    else
        memcpy((uint8_t *)part->code_base, part->code, part->code_size);
    __asm__ volatile("fence.i" ::: "memory");
    memset((uint8_t *)part->data_base, 0, part->data_size);
    memcpy((uint8_t *)part->data_base, part->first, part->first_count);
    return !sfi_device_is_code_in_place || sfi_device_is_code_in_place(part);
}

static bool load(struct sfi_device_plugins *all, uint32_t number, uint32_t area) {
    struct sfi_device_part part;
    if (!accept(all, number, area, &part) || !put(all, &part))
        return false;
    sfi_device_enter_start(&all->plugins[number].sandbox, &part);
    return true;
}

static void tell(const struct sfi_device_plugins *all, uint32_t number, enum sfi_device_plugin_news news) {
    if (all->tells)
        all->tells(all->firmware->host, number, news, all->plugins[number].version);
}

/* Starts the version that the store chooses, or the one before it where that can't be. */
static void start(struct sfi_device_plugins *all, uint32_t number) {
    struct sfi_device_plugin *plugin = &all->plugins[number];
    uint32_t area;
    sfi_device_empty(&plugin->sandbox);
    plugin->turns = 0;
    plugin->is_kept = false;
    while (sfi_device_store_choose(&plugin->store, &area) == SFI_DEVICE_STORE_DONE) {
        plugin->version = plugin->store.record.versions[area].claim.sequence;
        bool is_loaded = load(all, number, area);
        tell(all, number, is_loaded ? SFI_DEVICE_PLUGIN_STARTS : SFI_DEVICE_PLUGIN_IS_REFUSED);
        if (is_loaded)
            return;
        if (sfi_device_store_reject(&plugin->store) != SFI_DEVICE_STORE_DONE)
            break; /* the trial's starts end it */
    }
    plugin->version = 0;
}

/* ---- For the firmware */

static struct sfi_device_fault fault_of(enum sfi_device_status status, uint32_t number) {
    return (struct sfi_device_fault){status, 0, number};
}

static struct sfi_device_fault open(struct sfi_device_plugins *all, uint32_t number) {
    struct sfi_device_plugin *plugin = &all->plugins[number];
    const struct sfi_device_part part = part_of(&plugin->place);
    if (!has_place(all, number))
        return fault_of(SFI_DEVICE_BAD_PLACE, number);
    if (sfi_device_store_open(&plugin->store) != SFI_DEVICE_STORE_DONE)
        return fault_of(SFI_DEVICE_BAD_STORE, number);
    return sfi_device_close_guards(number, &part);
}

static struct sfi_device_fault try_guards(struct sfi_device_plugins *all, uint32_t number) {
    const struct sfi_device_part part = part_of(&all->plugins[number].place);
    return sfi_device_try_guards(all->firmware, &part);
}

/* Of each plug-in, up to the first fault. */
static struct sfi_device_fault for_each(struct sfi_device_plugins *all,
                                        struct sfi_device_fault (*step)(struct sfi_device_plugins *all, uint32_t number)) {
    struct sfi_device_fault fault = {SFI_DEVICE_DONE, 0, 0};
    for (uint32_t number = 0; number < all->count && fault.status == SFI_DEVICE_DONE; number++)
        fault = step(all, number);
    return fault;
}

struct sfi_device_fault sfi_device_plugins_open(struct sfi_device_plugins *all) {
    if (all->is_working)
        return fault_of(SFI_DEVICE_BUSY, 0);
    all->is_open = false;
    struct sfi_device_fault fault = for_each(all, open);
    if (fault.status == SFI_DEVICE_DONE)
        fault = sfi_device_write_protection();
    if (fault.status == SFI_DEVICE_DONE)
        fault = for_each(all, try_guards);
    if (fault.status != SFI_DEVICE_DONE)
        return fault;
    all->is_open = all->is_working = true;
    for (uint32_t number = 0; number < all->count; number++)
        start(all, number);
    all->is_working = false;
    return fault;
}

/* Keeps what has reported, and rejects what doesn't work. */
static void tend(struct sfi_device_plugins *all, uint32_t number) {
    struct sfi_device_plugin *plugin = &all->plugins[number];
    const struct sfi_device_sandbox *sandbox = &plugin->sandbox;
    if (plugin->is_kept || sandbox->state == SFI_DEVICE_EMPTY)
        return;
    if (sandbox->has_reported) {
        plugin->is_kept = sfi_device_store_keep(&plugin->store) == SFI_DEVICE_STORE_DONE;
        if (plugin->is_kept)
            tell(all, number, SFI_DEVICE_PLUGIN_IS_KEPT);
    } else if (sandbox->state != SFI_DEVICE_READY || plugin->turns >= all->trial_turns) {
        tell(all, number, SFI_DEVICE_PLUGIN_GAVE_UP);
        (void)sfi_device_store_reject(&plugin->store); /* where that fails the trial's starts end it */
        start(all, number);
    }
}

static bool is_idle(const struct sfi_device_plugins *all) {
    return all->is_open && !all->is_working;
}

void sfi_device_plugins_run(struct sfi_device_plugins *all) {
    if (!is_idle(all))
        return;
    all->is_working = true;
    run_turns(all);
    for (uint32_t number = 0; number < all->count; number++)
        tend(all, number);
    all->is_working = false;
}

bool sfi_device_plugins_may_update(const struct sfi_device_plugins *all, uint32_t number) {
    return is_idle(all) && number < all->count &&
           (all->plugins[number].is_kept || all->plugins[number].sandbox.state == SFI_DEVICE_EMPTY);
}

enum sfi_device_store_status sfi_device_plugins_begin(struct sfi_device_plugins *all, uint32_t number,
                                                      const struct sfi_device_claim *claim,
                                                      const uint8_t signature[SFI_DEVICE_SIGNATURE_SIZE]) {
    if (!sfi_device_plugins_may_update(all, number))
        return SFI_DEVICE_STORE_TOO_EARLY;
    all->is_working = true;
    enum sfi_device_store_status status = sfi_device_store_begin(&all->plugins[number].store, claim, signature);
    all->is_working = false;
    return status;
}

enum sfi_device_store_status sfi_device_plugins_write(struct sfi_device_plugins *all, uint32_t number, const uint8_t *bytes,
                                                      uint32_t length) {
    if (!sfi_device_plugins_may_update(all, number))
        return SFI_DEVICE_STORE_TOO_EARLY;
    all->is_working = true;
    enum sfi_device_store_status status = sfi_device_store_write(&all->plugins[number].store, bytes, length);
    all->is_working = false;
    return status;
}

enum sfi_device_store_status sfi_device_plugins_finish(struct sfi_device_plugins *all, uint32_t number) {
    if (!sfi_device_plugins_may_update(all, number))
        return SFI_DEVICE_STORE_TOO_EARLY;
    all->is_working = true;
    enum sfi_device_store_status status = sfi_device_store_finish(&all->plugins[number].store);
    if (status == SFI_DEVICE_STORE_DONE)
        start(all, number);
    all->is_working = false;
    return status;
}
