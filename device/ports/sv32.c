/* One Sv32 page table for the host and its sandboxes: code can be executed and nothing else, data
   read and written, and the guard zones have no entry. M-mode makes it, in physical addresses. */
#include "../internal.h"
#include "../privileged.h"
#include "../sfi_device_sv32.h"

enum {
    ENTRIES = PAGE / 4,
    WINDOW_PAGES = SFI_DEVICE_SV32_WINDOW / PAGE,
    /* how many data regions may be smaller than a page: each takes a page of the window and an entry of PMP */
    SMALL_MOST = SFI_DEVICE_PMP_ENTRIES - 2 < WINDOW_PAGES ? SFI_DEVICE_PMP_ENTRIES - 2 : WINDOW_PAGES,
    PMP_WINDOW = SMALL_MOST,
    PMP_ALL = SMALL_MOST + 1
};

static uint32_t root[ENTRIES] __attribute__((aligned(PAGE)));

/* NULL where there is none left. */
static uint8_t *new_page(struct sfi_device_sv32 *space) {
    if (space->pool == space->pool_end)
        return NULL;
    uint8_t *page = space->pool;
    space->pool += PAGE;
    return memset(page, 0, PAGE);
}

static uint32_t entry_to(const void *physical, uint32_t flags) {
    return (uint32_t)physical >> 12 << 10 | PTE_V | flags;
}

static uint8_t *target_of(uint32_t entry) {
    return (uint8_t *)(entry >> 10 << 12);
}

/* Of an upper entry: it is a megapage's, and no table's. */
static bool is_leaf(uint32_t entry) {
    return (entry & (PTE_R | PTE_W | PTE_X)) != 0;
}

/* NULL where there is no page left for it, or a megapage is there. */
static uint32_t *entry_of(struct sfi_device_sv32 *space, uint32_t address) {
    uint32_t *upper = &root[address / MEGAPAGE];
    if (is_leaf(*upper))
        return NULL;
    if (*upper == 0) {
        uint8_t *table = new_page(space);
        if (table == NULL)
            return NULL;
        *upper = entry_to(table, 0);
    }
    return (uint32_t *)target_of(*upper) + address / PAGE % ENTRIES;
}

static uint32_t least(uint32_t a, uint32_t b) {
    return a < b ? a : b;
}

/* The page at an address, new where there was none; NULL where there is none left. */
static uint8_t *page_at(struct sfi_device_sv32 *space, uint32_t address, uint32_t rights) {
    uint32_t *entry = entry_of(space, address);
    if (entry != NULL && *entry == 0) {
        uint8_t *page = new_page(space);
        if (page == NULL)
            return NULL;
        *entry = entry_to(page, rights | PTE_ACCESSED | PTE_DIRTY);
    }
    return entry == NULL ? NULL : target_of(*entry);
}

/* Maps a region, and writes its first bytes; the others are 0. Code regions below 4096 bytes may
   share a page. False where there is no page left. */
static bool map_region(struct sfi_device_sv32 *space, uint32_t base, uint32_t size, uint32_t rights, const uint8_t *bytes,
                       uint32_t length) {
    for (uint32_t done = 0; done < size;) {
        uint8_t *page = page_at(space, base + done, rights);
        uint32_t offset = (base + done) % PAGE;
        uint32_t part = least(PAGE - offset, size - done);
        if (page == NULL)
            return false;
        if (done < length)
            memcpy(page + offset, bytes + done, least(part, length - done));
        done += part;
    }
    return true;
}

/* A data region below 4096 bytes gets a page of the window, and a PMP entry that opens its bytes
   there. False where there is no page left for the table. */
static bool open_small_data(struct sfi_device_sv32 *space, const struct sfi_device_part *part) {
    uint8_t *page = memset(space->window + PAGE * space->small_count, 0, PAGE);
    uint32_t *entry = entry_of(space, part->data_base);
    if (entry == NULL)
        return false;
    *entry = entry_to(page, PTE_R | PTE_W | PTE_ACCESSED | PTE_DIRTY);
    sfi_device_protect(space->small_count, sfi_device_power_of_two((uint32_t)page + part->data_base % PAGE, part->data_size),
                       PMP_NAPOT | PMP_R | PMP_W);
    space->small_count++;
    return true;
}

static bool meets_host(const struct sfi_device_sv32 *space, uint64_t from, uint64_t to) {
    return from < space->host_to && to > space->host_from;
}

/* No table entry is made outside regions but the host's: so the zone at zero of the fourth format is closed where the host isn't. */
static bool has_host_at_zero(const struct sfi_device_sv32 *space, const struct sfi_device_part *part) {
    return part->format == SFI_DEVICE_FORMAT_OF_SINGLE_MASKS &&
           (meets_host(space, 0, (uint64_t)part->data_size + SFI_DEVICE_GUARD_ZONE) ||
            meets_host(space, (uint64_t)UINT32_MAX + 1 - SFI_DEVICE_GUARD_ZONE, (uint64_t)UINT32_MAX + 1));
}

static bool map_data(struct sfi_device_sv32 *space, const struct sfi_device_part *part) {
    if (part->data_size < PAGE && !open_small_data(space, part))
        return false;
    return map_region(space, part->data_base, part->data_size, PTE_R | PTE_W, part->first, part->first_count);
}

struct sfi_device_fault sfi_device_sv32_map(struct sfi_device_sv32 *space, const struct sfi_device_part *part) {
    uint64_t data_end = (uint64_t)part->data_base + part->data_size;
    enum sfi_device_status status = SFI_DEVICE_DONE;
    if (meets_host(space, part->code_base, (uint64_t)part->code_base + part->code_size))
        status = SFI_DEVICE_CODE_IS_HOST;
    else if (meets_host(space, (uint64_t)part->data_base - SFI_DEVICE_GUARD_ZONE, data_end + SFI_DEVICE_GUARD_ZONE))
        status = SFI_DEVICE_DATA_IS_HOST;
    else if (has_host_at_zero(space, part))
        status = SFI_DEVICE_NO_ZONE_AT_ZERO;
    else if (part->data_size < PAGE && space->small_count == SMALL_MOST)
        status = SFI_DEVICE_NO_ENTRY;
    else if (!map_region(space, part->code_base, part->code_size, PTE_X, part->code, part->code_size) || !map_data(space, part))
        status = SFI_DEVICE_NO_MEMORY;
    return (struct sfi_device_fault){status, 0, 0};
}

uint8_t *sfi_device_sv32_page_of_code(struct sfi_device_sv32 *space, uint32_t address) {
    return page_at(space, address, PTE_X);
}

void *sfi_device_sv32_at(struct sfi_device_sv32 *space, uint32_t address) {
    uint32_t *entry = entry_of(space, address);
    return entry == NULL || *entry == 0 ? NULL : target_of(*entry) + address % PAGE;
}

static bool is_of_host(const struct sfi_device_sv32 *space, uint64_t from, uint64_t to) {
    return from >= space->host_from && to <= space->host_to;
}

bool sfi_device_sv32_map_device(struct sfi_device_sv32 *space, uint32_t address, uint32_t device) {
    uint32_t *entry = is_of_host(space, address, (uint64_t)address + PAGE) ? entry_of(space, address) : NULL;
    if (entry == NULL || *entry != 0)
        return false;
    *entry = entry_to((void *)device, PTE_R | PTE_W | PTE_ACCESSED | PTE_DIRTY);
    return true;
}

/* The host's memory has no protection from the sandboxes but what the checker says of them: one
   address space, one privilege. */
bool sfi_device_sv32_map_host(const struct sfi_device_sv32 *space, uint32_t from, uint32_t to) {
    if (from % MEGAPAGE != 0 || to % MEGAPAGE != 0 || !is_of_host(space, from, to))
        return false;
    for (uint32_t address = from; address < to; address += MEGAPAGE) {
        if (root[address / MEGAPAGE] != 0)
            return false;
        root[address / MEGAPAGE] = entry_to((void *)address, PTE_R | PTE_W | PTE_X | PTE_ACCESSED | PTE_DIRTY);
    }
    return true;
}

struct sfi_device_fault sfi_device_sv32_finish(const struct sfi_device_sv32 *space, uint32_t *satp) {
    sfi_device_protect(PMP_WINDOW, sfi_device_power_of_two((uint32_t)space->window, SFI_DEVICE_SV32_WINDOW), PMP_NAPOT);
    sfi_device_protect(PMP_ALL, UINT32_MAX, PMP_NAPOT | PMP_R | PMP_W | PMP_X); /* all addresses */
    *satp = SATP_SV32 | (uint32_t)root / PAGE;
    return sfi_device_write_protection();
}
