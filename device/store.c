/* The versions of a plug-in in flash. A record is appended to those before it: to their sector, or where that is full to the
   other, which is erased first. So no write touches the latest record; one that is cut has a wrong check, and doesn't count.
   Anybody can make a right check: what the counter is raised to is what a signed claim says, of a version that was kept. */
#include "bytes.h"
#include "sfi_device_store.h"

enum { LAYOUT = 0x31494653 /* "SFI1" */, CHUNK = 64, ERASED = 0xff };
_Static_assert(sizeof(struct sfi_device_record) == SFI_DEVICE_RECORD_SIZE, "a record has no padding");

static bool are_same(const void *one, const void *other, uint32_t length) {
    const uint8_t *a = one, *b = other;
    uint32_t same = 0;
    while (same < length && a[same] == b[same])
        same++;
    return same == length;
}

static uint32_t higher(uint32_t one, uint32_t other) { return one > other ? one : other; }

static void watch(const struct sfi_device_store *store, bool on) {
    if (store->watch)
        store->watch(store->host, on);
}

static void digest_of(uint8_t digest[SFI_DEVICE_DIGEST_SIZE], const void *bytes, uint32_t length) {
    struct sfi_device_sha256 hash;
    sfi_device_sha256_begin(&hash);
    sfi_device_sha256_add(&hash, bytes, length);
    sfi_device_sha256_end(&hash, digest);
}

/* ---- Setup */

static bool are_apart(uint64_t one, uint64_t one_size, uint64_t other, uint64_t other_size) {
    return one + one_size <= other || other + other_size <= one;
}

static bool are_sizes(const struct sfi_device_store *store) {
    const struct sfi_device_flash *flash = store->flash;
    uint32_t sector = flash->sector_size, page = flash->page_size, area = store->area_size;
    return sector != 0 && sector % SFI_DEVICE_RECORD_SIZE == 0 && page != 0 && page <= SFI_DEVICE_PAGE_MOST &&
           (page & (page - 1)) == 0 && area != 0 && area % sector == 0 && store->trial_starts != 0;
}

/* Whether so many bytes from there on are addresses, and whole sectors, as those of the records are. */
static bool are_sectors(const struct sfi_device_store *store, uint32_t from, uint64_t size) {
    uint32_t sector = store->flash->sector_size;
    return from + size <= (uint64_t)UINT32_MAX + 1 && from % sector == store->records % sector;
}

static bool are_places(const struct sfi_device_store *store) {
    const uint64_t area = store->area_size, records = 2 * (uint64_t)store->flash->sector_size;
    return are_sectors(store, store->records, records) && are_sectors(store, store->areas[0], area) &&
           are_sectors(store, store->areas[1], area) && are_apart(store->areas[0], area, store->areas[1], area) &&
           are_apart(store->areas[0], area, store->records, records) && are_apart(store->areas[1], area, store->records, records);
}

/* A counter without signatures would be anybody's to raise. */
static bool are_functions(const struct sfi_device_store *store) {
    const struct sfi_device_flash *flash = store->flash;
    return flash && flash->read && flash->erase_sector && flash->program_page && !store->read_counter == !store->raise_counter &&
           (store->is_signed || !store->read_counter);
}

static bool is_open(const struct sfi_device_store *store) { return store->record.layout == LAYOUT; }

/* ---- Records */

static void seal(struct sfi_device_record *record) {
    uint8_t digest[SFI_DEVICE_DIGEST_SIZE];
    digest_of(digest, record, offsetof(struct sfi_device_record, check));
    memcpy(record->check, digest, sizeof record->check);
}

static bool is_record(const struct sfi_device_record *record) {
    if (record->layout != LAYOUT)
        return false;
    struct sfi_device_record sealed = *record;
    seal(&sealed);
    return are_same(&sealed, record, sizeof sealed);
}

static bool read_place(const struct sfi_device_store *store, uint32_t place, struct sfi_device_record *record) {
    return store->flash->read(store->host, store->records + place, (uint8_t *)record, sizeof *record);
}

/* No bit of it is 0. What can't be read is none. */
static bool is_erased(const struct sfi_device_store *store, uint32_t place) {
    struct sfi_device_record found, erased;
    memset(&erased, ERASED, sizeof erased);
    return read_place(store, place, &found) && are_same(&found, &erased, sizeof found);
}

/* Where the next record goes: behind the latest, or to the beginning of the other sector, which is erased for it. */
static bool make_place(const struct sfi_device_store *store, uint32_t *place) {
    uint32_t size = store->flash->sector_size, next = store->place + SFI_DEVICE_RECORD_SIZE;
    while (next % size != 0 && !is_erased(store, next))
        next += SFI_DEVICE_RECORD_SIZE;
    *place = next;
    if (next % size != 0)
        return true;
    *place = store->place < size ? size : 0;
    return store->flash->erase_sector(store->host, store->records + *place);
}

/* The last record of a sector, which begins at `from`. False where it has none. */
static bool read_last(const struct sfi_device_store *store, uint32_t from, struct sfi_device_record *last, uint32_t *place) {
    struct sfi_device_record found;
    bool is_there = false;
    for (uint32_t at = from; at < from + store->flash->sector_size; at += SFI_DEVICE_RECORD_SIZE)
        if (read_place(store, at, &found) && is_record(&found)) {
            *last = found;
            *place = at;
            is_there = true;
        }
    return is_there;
}

/* Reads the latest record: the last of the later sector. Generations go on from 0 after the last number. */
static void read_latest(struct sfi_device_store *store) {
    uint32_t size = store->flash->sector_size, place;
    struct sfi_device_record last;
    memset(&store->record, 0, sizeof store->record);
    store->place = 2 * size - SFI_DEVICE_RECORD_SIZE; /* where there is none, the first goes to the other sector's beginning */
    bool is_there = read_last(store, 0, &store->record, &store->place);
    if (read_last(store, size, &last, &place) && (!is_there || (int32_t)(last.generation - store->record.generation) > 0)) {
        store->record = last;
        store->place = place;
    }
    store->record.layout = LAYOUT;
}

static bool program(const struct sfi_device_store *store, uint32_t address, const uint8_t *bytes, uint32_t length) {
    uint32_t page = store->flash->page_size, done = 0;
    while (done < length && store->flash->program_page(store->host, address + done, bytes + done))
        done += page;
    return done >= length;
}

/* Has the record say this from now on. */
static enum sfi_device_store_status write_record(struct sfi_device_store *store, const struct sfi_device_record *next) {
    struct sfi_device_record sealed = *next, found;
    uint32_t place, size = store->flash->sector_size;
    if (!make_place(store, &place))
        return SFI_DEVICE_STORE_FLASH_FAILED;
    sealed.generation = store->record.generation + (place / size != store->place / size);
    seal(&sealed);
    if (!program(store, store->records + place, (const uint8_t *)&sealed, sizeof sealed) ||
        !read_place(store, place, &found) || !are_same(&found, &sealed, sizeof found))
        return SFI_DEVICE_STORE_FLASH_FAILED;
    store->record = sealed;
    store->place = place;
    return SFI_DEVICE_STORE_DONE;
}

static enum sfi_device_store_status write_state(struct sfi_device_store *store, uint32_t area, uint32_t state,
                                                uint32_t starts) {
    struct sfi_device_record next = store->record;
    next.versions[area].state = state;
    next.versions[area].starts = starts;
    return write_record(store, &next);
}

/* ---- Versions */

static bool is_signed(const struct sfi_device_store *store, const struct sfi_device_stored_version *version) {
    return !store->is_signed || store->is_signed(store->host, &version->claim, version->signature);
}

/* The counter, and what the record says beyond it, as far as a signed claim in it says so, too: what was kept before a cut. */
static uint32_t believed_least(const struct sfi_device_store *store) {
    if (!store->read_counter)
        return store->record.least_sequence;
    uint32_t least = store->read_counter(store->host);
    for (uint32_t area = 0; area < SFI_DEVICE_AREAS; area++) {
        const struct sfi_device_stored_version *version = &store->record.versions[area];
        uint32_t claimed = version->claim.least_sequence;
        if (claimed > least && claimed <= store->record.least_sequence && is_signed(store, version))
            least = claimed;
    }
    return least;
}

/* Of all versions that were taken: the last of them stays on record until the next. */
static uint32_t latest_sequence(const struct sfi_device_store *store) {
    uint32_t latest = 0;
    for (uint32_t area = 0; area < SFI_DEVICE_AREAS; area++) {
        const struct sfi_device_stored_version *version = &store->record.versions[area];
        if (version->claim.sequence > latest && is_signed(store, version))
            latest = version->claim.sequence;
    }
    return latest;
}

static uint32_t least_sequence(const struct sfi_device_store *store) {
    uint32_t counted = store->read_counter ? store->read_counter(store->host) : 0;
    return higher(counted, store->record.least_sequence);
}

/* After a cut between both, until the version is kept again. */
static bool is_counter_behind(const struct sfi_device_store *store) {
    return store->read_counter && store->read_counter(store->host) < store->record.least_sequence;
}

static enum sfi_device_store_status judge_claim(const struct sfi_device_store *store,
                                                const struct sfi_device_stored_version *version) {
    const struct sfi_device_claim *claim = &version->claim;
    if (claim->length == 0 || claim->length > store->area_size)
        return SFI_DEVICE_STORE_WRONG_LENGTH;
    if (claim->sequence < least_sequence(store) || claim->sequence < claim->least_sequence)
        return SFI_DEVICE_STORE_TOO_OLD;
    if (!is_signed(store, version))
        return SFI_DEVICE_STORE_NOT_SIGNED;
    return SFI_DEVICE_STORE_DONE;
}

/* Whether the area holds the image that the claim speaks of. */
static bool has_image(const struct sfi_device_store *store, uint32_t area, const struct sfi_device_claim *claim) {
    struct sfi_device_sha256 hash;
    uint8_t bytes[CHUNK], digest[SFI_DEVICE_DIGEST_SIZE];
    sfi_device_sha256_begin(&hash);
    for (uint32_t done = 0; done < claim->length; done += CHUNK) {
        uint32_t left = claim->length - done, length = left < CHUNK ? left : CHUNK;
        if (!store->flash->read(store->host, store->areas[area] + done, bytes, length))
            return false;
        sfi_device_sha256_add(&hash, bytes, length);
    }
    sfi_device_sha256_end(&hash, digest);
    return are_same(digest, claim->digest, sizeof digest);
}

/* The area of the version with the highest sequence number of those that aren't bad. */
static uint32_t latest_version(const struct sfi_device_store *store) {
    uint32_t latest = SFI_DEVICE_AREAS;
    for (uint32_t area = 0; area < SFI_DEVICE_AREAS; area++) {
        const struct sfi_device_stored_version *version = &store->record.versions[area];
        if (version->state == SFI_DEVICE_VERSION_NONE || version->state == SFI_DEVICE_VERSION_BAD)
            continue;
        if (latest == SFI_DEVICE_AREAS || version->claim.sequence > store->record.versions[latest].claim.sequence)
            latest = area;
    }
    return latest;
}

/* Whether it may be started, which for a version on trial is on record then. */
static bool may_start(struct sfi_device_store *store, uint32_t area) {
    const struct sfi_device_stored_version *version = &store->record.versions[area];
    if (judge_claim(store, version) != SFI_DEVICE_STORE_DONE || !has_image(store, area, &version->claim))
        return false;
    if (version->state == SFI_DEVICE_VERSION_GOOD)
        return true;
    return version->starts < store->trial_starts &&
           write_state(store, area, SFI_DEVICE_VERSION_ON_TRIAL, version->starts + 1) == SFI_DEVICE_STORE_DONE;
}

/* Where the flash can't be written it is bad until the next reset. */
static enum sfi_device_store_status mark_bad(struct sfi_device_store *store, uint32_t area) {
    enum sfi_device_store_status status = write_state(store, area, SFI_DEVICE_VERSION_BAD, store->record.versions[area].starts);
    store->record.versions[area].state = SFI_DEVICE_VERSION_BAD;
    return status;
}

static bool is_on_trial(const struct sfi_device_store *store) {
    return store->chosen != SFI_DEVICE_AREAS && store->record.versions[store->chosen].state == SFI_DEVICE_VERSION_ON_TRIAL;
}

/* ---- What runs */

enum sfi_device_store_status sfi_device_store_open(struct sfi_device_store *store) {
    memset(&store->record, 0, sizeof store->record);
    store->is_chosen = store->is_taking = false;
    store->chosen = SFI_DEVICE_AREAS;
    if (!are_functions(store) || !are_sizes(store) || !are_places(store))
        return SFI_DEVICE_STORE_BAD_SETUP;
    read_latest(store);
    store->record.least_sequence = believed_least(store);
    return SFI_DEVICE_STORE_DONE;
}

enum sfi_device_store_status sfi_device_store_choose(struct sfi_device_store *store, uint32_t *area) {
    if (!is_open(store))
        return SFI_DEVICE_STORE_TOO_EARLY;
    store->is_chosen = true;
    store->is_taking = false;
    store->chosen = latest_version(store);
    while (store->chosen != SFI_DEVICE_AREAS && !may_start(store, store->chosen)) {
        (void)mark_bad(store, store->chosen);
        store->chosen = latest_version(store);
    }
    watch(store, is_on_trial(store));
    if (store->chosen == SFI_DEVICE_AREAS)
        return SFI_DEVICE_STORE_NO_VERSION;
    *area = store->chosen;
    return SFI_DEVICE_STORE_DONE;
}

enum sfi_device_store_status sfi_device_store_keep(struct sfi_device_store *store) {
    if (!store->is_chosen || store->chosen == SFI_DEVICE_AREAS)
        return SFI_DEVICE_STORE_TOO_EARLY;
    struct sfi_device_record next = store->record;
    struct sfi_device_stored_version *version = &next.versions[store->chosen];
    next.least_sequence = higher(next.least_sequence, version->claim.least_sequence);
    version->state = SFI_DEVICE_VERSION_GOOD;
    if (!are_same(&next, &store->record, sizeof next)) {
        enum sfi_device_store_status status = write_record(store, &next);
        if (status != SFI_DEVICE_STORE_DONE)
            return status;
    }
    watch(store, false);
    bool is_raised = !is_counter_behind(store) || store->raise_counter(store->host, store->record.least_sequence);
    return is_raised ? SFI_DEVICE_STORE_DONE : SFI_DEVICE_STORE_FLASH_FAILED;
}

enum sfi_device_store_status sfi_device_store_reject(struct sfi_device_store *store) {
    if (!store->is_chosen || store->chosen == SFI_DEVICE_AREAS)
        return SFI_DEVICE_STORE_TOO_EARLY;
    enum sfi_device_store_status status = mark_bad(store, store->chosen);
    store->is_chosen = false;
    store->chosen = SFI_DEVICE_AREAS;
    watch(store, false);
    return status;
}

/* ---- Updates */

static bool may_begin(const struct sfi_device_store *store) {
    bool is_running = store->chosen != SFI_DEVICE_AREAS;
    return store->is_chosen && !is_on_trial(store) && !(is_running && is_counter_behind(store));
}

/* Not the chosen version's area; nor, where none runs, that of the claim which the counter doesn't tell of yet. */
static uint32_t area_for_update(const struct sfi_device_store *store) {
    if (store->chosen != SFI_DEVICE_AREAS)
        return store->chosen == 0 ? 1 : 0;
    return is_counter_behind(store) && store->record.versions[0].claim.least_sequence == store->record.least_sequence ? 1 : 0;
}

/* Leaves the area without a version, but its claim, on record, and then erases what the image needs of it. */
static enum sfi_device_store_status clear_area(struct sfi_device_store *store, uint32_t area, uint32_t length) {
    if (store->record.versions[area].state != SFI_DEVICE_VERSION_NONE &&
        write_state(store, area, SFI_DEVICE_VERSION_NONE, 0) != SFI_DEVICE_STORE_DONE)
        return SFI_DEVICE_STORE_FLASH_FAILED;
    for (uint32_t done = 0; done < length; done += store->flash->sector_size)
        if (!store->flash->erase_sector(store->host, store->areas[area] + done))
            return SFI_DEVICE_STORE_FLASH_FAILED;
    return SFI_DEVICE_STORE_DONE;
}

enum sfi_device_store_status sfi_device_store_begin(struct sfi_device_store *store, const struct sfi_device_claim *claim,
                                                    const uint8_t signature[SFI_DEVICE_SIGNATURE_SIZE]) {
    if (!may_begin(store))
        return SFI_DEVICE_STORE_TOO_EARLY;
    struct sfi_device_stored_version update = {.state = SFI_DEVICE_VERSION_NEW, .claim = *claim}; /* which may be the store's own */
    if (signature)
        memcpy(update.signature, signature, sizeof update.signature);
    store->is_taking = false;
    store->update = update;
    enum sfi_device_store_status status = judge_claim(store, &store->update);
    if (status == SFI_DEVICE_STORE_DONE && update.claim.sequence <= latest_sequence(store))
        status = SFI_DEVICE_STORE_TOO_OLD;
    if (status != SFI_DEVICE_STORE_DONE)
        return status;
    store->target = area_for_update(store);
    store->taken = 0;
    memset(store->page, ERASED, sizeof store->page);
    status = clear_area(store, store->target, update.claim.length);
    store->is_taking = status == SFI_DEVICE_STORE_DONE;
    return status;
}

/* Programs the page that the update's last bytes are in. */
static bool write_page(struct sfi_device_store *store) {
    uint32_t page = store->flash->page_size, at = (store->taken - 1) / page * page;
    bool is_written = program(store, store->areas[store->target] + at, store->page, page);
    memset(store->page, ERASED, sizeof store->page);
    return is_written;
}

static enum sfi_device_store_status end_update(struct sfi_device_store *store, enum sfi_device_store_status status) {
    store->is_taking = false;
    return status;
}

enum sfi_device_store_status sfi_device_store_write(struct sfi_device_store *store, const uint8_t *bytes, uint32_t length) {
    if (!store->is_taking)
        return SFI_DEVICE_STORE_TOO_EARLY;
    if (length > store->update.claim.length - store->taken)
        return end_update(store, SFI_DEVICE_STORE_WRONG_LENGTH);
    uint32_t page = store->flash->page_size;
    for (uint32_t i = 0; i < length; i++) {
        store->page[store->taken % page] = bytes[i];
        store->taken++;
        if (store->taken % page == 0 && !write_page(store))
            return end_update(store, SFI_DEVICE_STORE_FLASH_FAILED);
    }
    return SFI_DEVICE_STORE_DONE;
}

enum sfi_device_store_status sfi_device_store_finish(struct sfi_device_store *store) {
    if (!store->is_taking)
        return SFI_DEVICE_STORE_TOO_EARLY;
    store->is_taking = false;
    if (store->taken != store->update.claim.length)
        return SFI_DEVICE_STORE_WRONG_LENGTH;
    if (store->taken % store->flash->page_size != 0 && !write_page(store))
        return SFI_DEVICE_STORE_FLASH_FAILED;
    if (!has_image(store, store->target, &store->update.claim))
        return SFI_DEVICE_STORE_DIFFERS;
    struct sfi_device_record next = store->record;
    next.versions[store->target] = store->update;
    return write_record(store, &next);
}
