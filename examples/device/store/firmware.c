/* A firmware that takes updates of its one plug-in, on QEMU's `virt` without protection of memory (a reset of QEMU 7.2 doesn't
   open its locked entries): test_firmware.py has each version's bytes loaded beside it. It takes one update after the other;
   each starts at the next reset, and exits with 0 if it works. This is one passage, which begins with an empty flash. In each
   passage the power is cut once: a reset comes before a write of the flash, some writes later than in the passage before. */
#include "firmware.h"

enum {
    KEPT = 0x80700000,          /* memory that no reset changes */
    INBOX = 0x80300000,         /* FLASH_INPUT of chip.h: updates */
    RESETTER = 0x00100000,      /* SiFive's test device */
    RESET = 0x7777,
    SECTOR = 0x40000,
    TRIAL_STARTS = 2,
    TURNS = 100,                /* in which a version has to exit */
    RUNS_MOST = 32,
    WRITES_BETWEEN_CUTS = 13
};
#define MAGIC 0x45524f54u /* "TORE": memory was kept */

/* What a reset keeps, beside the flash: the counter, and what a passage did. */
struct kept {
    uint32_t magic, counter;
    uint32_t cut_at, writes;    /* the power is cut at the write of that number; writes of this passage */
    uint32_t run_count, runs[RUNS_MOST];
};
static struct kept *const kept = (struct kept *)KEPT;

/* An update as it is sent: its image comes behind it. A length of 0 ends the inbox. */
struct update {
    struct sfi_device_claim claim;
    uint8_t signature[SFI_DEVICE_SIGNATURE_SIZE];
};

static struct sfi_device_store store;
static struct world world;
static const struct arguments asked = {.turn_ticks = TURN_TICKS};

static _Noreturn void reset(void) {
    for (;;)
        *(volatile uint32_t *)RESETTER = RESET;
}

void count_write(void) {
    kept->writes++;
    if (kept->writes == kept->cut_at)
        reset();
}

/* ---- The firmware's functions of the store */

/* In the place of a signature is a digest that begins with a key, which only the vendor and the device know. */
static bool is_signed(void *host, const struct sfi_device_claim *claim, const uint8_t *signature) {
    static const uint8_t key[] = "the vendor's";
    uint8_t digest[SFI_DEVICE_DIGEST_SIZE];
    struct sfi_device_sha256 hash;
    (void)host;
    sfi_device_sha256_begin(&hash);
    sfi_device_sha256_add(&hash, key, sizeof key - 1);
    sfi_device_sha256_add(&hash, (const uint8_t *)claim, sizeof *claim);
    sfi_device_sha256_end(&hash, digest);
    return sfi_device_are_same(digest, signature, sizeof digest);
}

static uint32_t read_counter(void *host) {
    (void)host;
    return kept->counter;
}

static bool raise_counter(void *host, uint32_t least_sequence) {
    (void)host;
    count_write();
    kept->counter = least_sequence;
    return true;
}

static void need(enum sfi_device_store_status status) {
    if (status != SFI_DEVICE_STORE_DONE)
        refuse_number("the store answers ", status, "");
}

static void open_store(void) {
    store = (struct sfi_device_store){
        .flash = &cfi_flash, .records = 0, .areas = {2 * SECTOR, 3 * SECTOR}, .area_size = SECTOR, .trial_starts = TRIAL_STARTS,
        .is_signed = is_signed, .read_counter = read_counter, .raise_counter = raise_counter
    };
    need(sfi_device_store_open(&store));
}

/* ---- What runs */

/* The image comes from flash to memory, its code to its place. Whether it was accepted, and has a place. */
static bool load_plugin(uint32_t area, uint32_t length) {
    uint8_t *image = (uint8_t *)FLASH_IMAGE;
    struct sfi_verdict verdict = {0};
    struct sfi_device_part part;
    if (!cfi_flash.read(NULL, store.areas[area], image, length) ||
        sfi_device_check(image, length, NULL, NULL, &verdict) != SFI_DEVICE_DONE ||
        sfi_device_tell(image, length, 0, &part) != SFI_DEVICE_DONE || part.code_base != FLASH_CODE ||
        part.code_size > FLASH_ARGUMENTS - FLASH_CODE)
        return false;
    memcpy((uint8_t *)FLASH_CODE, part.code, part.code_size);
    __asm__ volatile("fence.i" ::: "memory");
    place(0, &part);
    sfi_device_enter_start(&world.plugins[0].sandbox, &part);
    return true;
}

/* Whether it was accepted, and exits with 0. */
static bool works(uint32_t area) {
    const struct sfi_device_claim *claim = &store.record.versions[area].claim;
    const struct sfi_device_sandbox *sandbox = &world.plugins[0].sandbox;
    if (kept->run_count < RUNS_MOST)
        kept->runs[kept->run_count++] = claim->sequence;
    if (!load_plugin(area, claim->length))
        return false;
    for (uint32_t number = 0; number < TURNS && sandbox->state == SFI_DEVICE_READY; number++)
        turn(&world, 0);
    return sandbox->state == SFI_DEVICE_EXITED && sandbox->exit_code == 0;
}

/* Runs the version that the store chooses, and the older one where that doesn't work. */
static void run_version(void) {
    uint32_t area;
    while (sfi_device_store_choose(&store, &area) == SFI_DEVICE_STORE_DONE) {
        if (works(area))
            return need(sfi_device_store_keep(&store));
        need(sfi_device_store_reject(&store));
    }
}

/* ---- Updates, passages */

/* Takes the first update that is newer than all before. False where none is. */
static bool take_update(void) {
    const struct update *update = (const struct update *)INBOX;
    while (update->claim.length != 0) {
        const uint8_t *image = (const uint8_t *)(update + 1);
        enum sfi_device_store_status status = sfi_device_store_begin(&store, &update->claim, update->signature);
        if (status != SFI_DEVICE_STORE_TOO_OLD) {
            need(status);
            need(sfi_device_store_write(&store, image, update->claim.length));
            need(sfi_device_store_finish(&store));
            return true;
        }
        update = (const struct update *)(image + (update->claim.length + 3) / 4 * 4);
    }
    return false;
}

static void print_passage(void) {
    print("cut=");
    print_decimal(kept->cut_at);
    print(" counter=");
    print_decimal(kept->counter);
    print(" runs=");
    for (uint32_t number = 0; number < kept->run_count; number++) {
        print(number == 0 ? "" : ",");
        print_decimal(kept->runs[number]);
    }
    print("\n");
}

static void begin_passage(uint32_t cut_at) {
    *kept = (struct kept){.magic = MAGIC};  /* no cut before the flash is empty */
    for (uint32_t sector = 0; sector < 4; sector++)
        if (!cfi_flash.erase_sector(NULL, sector * SECTOR))
            refuse("the flash can't be erased");
    kept->writes = 0;
    kept->cut_at = cut_at;
}

/* The last one has no cut: it was over before. */
static void end_passage(void) {
    bool is_last = kept->writes < kept->cut_at;
    print_passage();
    if (is_last)
        finish();
    begin_passage(kept->cut_at + WRITES_BETWEEN_CUTS);
}

void judge(void) {
    start_world(&world, &asked);
    world.count = 1;
    if (kept->magic != MAGIC)
        begin_passage(1);
    open_store();
}

void run_host(void) {
    run_version();
    if (!take_update())
        end_passage();
    reset();
}
