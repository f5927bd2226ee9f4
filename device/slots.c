/* Plug-ins in slots, and their versions: what the decisions ask for is done here. */
#include "sfi_device_slots.h"

#include "decisions.h"
#include "internal.h"

/* One of the calls of decisions.h, for a slot. */
#define DECIDED(call, ...) sfi_device_slots_##call(all->decided, all->count, __VA_ARGS__)

const struct sfi_version *sfi_device_current(const struct sfi_device_slots *all, uint32_t number) {
    return number < all->count ? &all->decided[number].current : NULL;
}

static bool is_in(const struct sfi_device_slots *all, uint32_t number, enum sfi_slot_state state) {
    return number < all->count && all->decided[number].current.state == state;
}

static struct sfi_device_part *part_of(const struct sfi_device_slots *all, uint32_t number, const struct sfi_version *version) {
    return &all->slots[number].parts[version->memory];
}

static void empty(const struct sfi_device_slots *all, uint32_t number) {
    sfi_device_empty(all->slots[number].sandbox);
    all->emptied(number);
}

/* What the image in that memory said. */
static void forget(const struct sfi_device_slots *all, uint32_t number, uint32_t memory) {
    all->slots[number].parts[memory] = (struct sfi_device_part){0};
}

void sfi_device_clear_slots(const struct sfi_device_slots *all) {
    sfi_device_slots_clear(all->decided, all->count);
    for (uint32_t number = 0; number < all->count; number++) {
        empty(all, number);
        for (uint32_t memory = 0; memory < SFI_DEVICE_VERSIONS; memory++)
            forget(all, number, memory);
    }
}

uint32_t sfi_device_free_slot(const struct sfi_device_slots *all) {
    uint32_t number = 0;
    while (number < all->count && sfi_device_current(all, number)->state != SFI_SLOT_EMPTY)
        number++;
    return number;
}

/* ---- Starting and stopping */

/* Writes the current version's code to its place. */
static bool place_code(const struct sfi_device_slots *all, uint32_t number, const struct sfi_device_part *part) {
    if (!DECIDED(place, number))
        return false;
    for (uint32_t done = 0; done < part->code_size; done += SFI_DEVICE_WRITTEN_MOST) {
        uint32_t left = part->code_size - done, piece = left < SFI_DEVICE_WRITTEN_MOST ? left : SFI_DEVICE_WRITTEN_MOST;
        if (!DECIDED(write, number, piece))
            return false;
        all->write_code(part->code_base + done, part->code + done, piece);
        all->between_pieces();
        sfi_device_run_slots(all);
    }
    __asm__ volatile("fence.i" ::: "memory");
    return !sfi_device_is_code_in_place || sfi_device_is_code_in_place(part);
}

/* The current version, on trial or not. */
static bool start(const struct sfi_device_slots *all, uint32_t number) {
    const struct sfi_device_part *part = part_of(all, number, sfi_device_current(all, number));
    empty(all, number); /* has no turn until all of it is placed */
    if (!place_code(all, number, part)) {
        DECIDED(place, number); /* and is in no place then */
        return false;
    }
    if (!DECIDED(may_enter, number, part->start))
        return false;
    memset((uint8_t *)part->data_base, 0, part->data_size);
    memcpy((uint8_t *)part->data_base, part->first, part->first_count);
    sfi_device_enter_start(all->slots[number].sandbox, part);
    return true;
}

bool sfi_device_start_slot(const struct sfi_device_slots *all, uint32_t number) {
    return is_in(all, number, SFI_SLOT_GOOD) && start(all, number);
}

bool sfi_device_confirm_slot(const struct sfi_device_slots *all, uint32_t number) {
    return number < all->count && DECIDED(confirm, number);
}

bool sfi_device_kill_slot(const struct sfi_device_slots *all, uint32_t number) {
    struct sfi_device_sandbox *sandbox = number < all->count ? all->slots[number].sandbox : NULL;
    if (sandbox == NULL || sandbox->state != SFI_DEVICE_READY)
        return false;
    sandbox->state = SFI_DEVICE_TRAPPED;
    sandbox->trap = "Killed";
    sandbox->trap_address = sandbox->frame.pc;
    return true;
}

bool sfi_device_call_slot(const struct sfi_device_slots *all, uint32_t number, uint32_t pc,
                          const uint32_t arguments[SFI_DEVICE_ARGUMENTS]) {
    return is_in(all, number, SFI_SLOT_GOOD) && DECIDED(may_enter, number, pc) &&
           sfi_device_enter_again(all->slots[number].sandbox, pc, arguments);
}

/* After this its place is anyone's: nothing is left of it that could be run, started or entered. */
bool sfi_device_remove_slot(const struct sfi_device_slots *all, uint32_t number) {
    if (number >= all->count || !DECIDED(remove, number))
        return false;
    empty(all, number);
    for (uint32_t memory = 0; memory < SFI_DEVICE_VERSIONS; memory++)
        forget(all, number, memory);
    return true;
}

static void roll_back(const struct sfi_device_slots *all, uint32_t number) {
    sfi_device_kill_slot(all, number);
    all->tells(number, SFI_DEVICE_NO_REPORT);
    forget(all, number, sfi_device_current(all, number)->memory);
    DECIDED(roll_back, number);
    if (start(all, number))
        all->tells(number, SFI_DEVICE_OLDER_VERSION);
}

static void run_slot(const struct sfi_device_slots *all, uint32_t number) {
    struct sfi_device_sandbox *sandbox = all->slots[number].sandbox;
    if (sandbox->state == SFI_DEVICE_EMPTY) /* it has no version, or that is being placed */
        return;
    if (sandbox->state == SFI_DEVICE_READY)
        sfi_device_turn(all->firmware, sandbox, all->turn_ticks);
    if (is_in(all, number, SFI_SLOT_ON_TRIAL) &&
        (sandbox->state != SFI_DEVICE_READY || !DECIDED(turn, number)))
        roll_back(all, number);
}

void sfi_device_run_slots(const struct sfi_device_slots *all) {
    for (uint32_t number = 0; number < all->count; number++)
        run_slot(all, number);
}

/* ---- Updates */

uint8_t *sfi_device_begin_update(const struct sfi_device_slots *all, uint32_t number) {
    if (number >= all->count || !DECIDED(begin, number))
        return NULL;
    const uint32_t memory = all->decided[number].other.memory;
    forget(all, number, memory);
    return all->slots[number].images[memory];
}

/* While an image is judged. The slot that it is for goes on with its current version. */
static void between_pieces(void *host) {
    const struct sfi_device_slots *all = host;
    all->between_pieces();
    sfi_device_run_slots(all);
}

static bool is_its_place(const struct sfi_device_slots *all, uint32_t number, const struct sfi_device_part *part) {
    return part->code_base >= all->code_from && part->code_size <= all->code_to - all->code_from &&
           part->code_base <= all->code_to - part->code_size && part->data_base == all->slots[number].data_base &&
           part->data_size == all->data_size;
}

/* The code stays as it was judged, so the moved image is accepted, too. */
static bool move_to_slot(const struct sfi_device_slot *slot, uint8_t *image, uint32_t length, struct sfi_device_part *part) {
    return sfi_device_move(image, length, 0, slot->moved_to, slot->data_base) &&
           sfi_device_tell(image, length, 0, part) == SFI_DEVICE_DONE;
}

/* Whether the image that was received may be the slot's: STARTED, where it was accepted. */
static enum sfi_device_update accept(const struct sfi_device_slots *all, uint32_t number, uint32_t length, bool moves,
                                     enum sfi_device_status *status, struct sfi_verdict *verdict) {
    const struct sfi_device_slot *slot = &all->slots[number];
    const uint32_t memory = all->decided[number].other.memory; /* no turn changes it: the current version isn't on trial */
    uint8_t *image = slot->images[memory];
    struct sfi_device_part part, further;
    *status = sfi_device_check(image, length, between_pieces, (void *)all, verdict);
    if (*status != SFI_DEVICE_DONE)
        return SFI_DEVICE_UPDATE_REFUSED;
    if (sfi_device_tell(image, length, 0, &part) != SFI_DEVICE_DONE ||
        sfi_device_tell(image, length, 1, &further) != SFI_DEVICE_NO_SANDBOX)
        return SFI_DEVICE_NOT_ONE_PLUGIN;
    if (part.format == SFI_DEVICE_FORMAT_OF_SINGLE_MASKS) {
        *status = SFI_DEVICE_NO_ZONE_AT_ZERO; /* the firmware has closed the guard zones beside the data alone */
        return SFI_DEVICE_UPDATE_REFUSED;
    }
    if ((moves && !move_to_slot(slot, image, length, &part)) || !is_its_place(all, number, &part))
        return SFI_DEVICE_NOT_ITS_PLACE;
    struct sfi_bounds bounds = {part.format, part.code_base, part.code_size, part.data_base, part.data_size};
    if (!DECIDED(accept, number, &bounds))
        return SFI_DEVICE_NOT_APART;
    all->slots[number].parts[memory] = part;
    return SFI_DEVICE_STARTED;
}

enum sfi_device_update sfi_device_end_update(const struct sfi_device_slots *all, uint32_t number, uint32_t length, bool moves,
                                             enum sfi_device_status *status, struct sfi_verdict *verdict) {
    if (number >= all->count || is_in(all, number, SFI_SLOT_ON_TRIAL) || all->decided[number].other.state != SFI_SLOT_RECEIVING)
        return SFI_DEVICE_NOT_BEGUN;
    enum sfi_device_update outcome = accept(all, number, length, moves, status, verdict);
    if (outcome != SFI_DEVICE_STARTED) {
        DECIDED(refuse, number);
        return outcome;
    }
    DECIDED(try, number, all->trial_turns);
    if (start(all, number))
        return SFI_DEVICE_STARTED;
    roll_back(all, number);
    return SFI_DEVICE_NOT_PLACED;
}
