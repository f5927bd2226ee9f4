/* The second flash of QEMU's `virt`: two chips of 16 bits side by side, with Intel's commands (JEDEC's Common Flash Interface,
   command set 1), so each command stands in both halves of a word. Its content outlives a reset. */
#include "cfi_flash.h"
#include "bytes.h"
#include "sfi_device.h"

enum { FLASH = 0x22000000, SECTOR = 0x40000, FLASH_PAGE = 64 };
enum { READ_ARRAY = 0x00ff00ff, PROGRAM = 0x00400040, ERASE = 0x00200020, CONFIRM = 0x00d000d0, READY = 0x00800080 };

static volatile uint32_t *word_at(uint32_t address) {
    return (volatile uint32_t *)(FLASH + address);
}

/* A command, and its word. Then a load tells whether it is done; all bits beside READY are faults. */
static bool command(uint32_t address, uint32_t what, uint32_t word) {
    uint32_t status;
    count_write();
    *word_at(address) = what;
    *word_at(address) = word;
    do
        status = *word_at(address);
    while ((status & READY) != READY);
    return status == READY;
}

/* From now on loads tell bytes again. */
static bool read_array(uint32_t address, bool is_done) {
    *word_at(address) = READ_ARRAY;
    return is_done;
}

static bool read(void *host, uint32_t address, uint8_t *bytes, uint32_t length) {
    (void)host;
    memcpy(bytes, (const uint8_t *)FLASH + address, length);
    return true;
}

static bool erase_sector(void *host, uint32_t address) {
    (void)host;
    return read_array(address, command(address, ERASE, CONFIRM));
}

static bool program_page(void *host, uint32_t address, const uint8_t *bytes) {
    (void)host;
    uint32_t at = 0;
    while (at < FLASH_PAGE && command(address + at, PROGRAM, sfi_device_word_at(bytes + at)))
        at += sizeof(uint32_t);
    return read_array(address, at == FLASH_PAGE);
}

const struct sfi_device_flash cfi_flash = {SECTOR, FLASH_PAGE, read, erase_sector, program_page};
