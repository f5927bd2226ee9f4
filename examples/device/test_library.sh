# The library of device/ by itself, for test.sh, whose functions this uses: its header in C++, and which names it has.

library=$shared/../../device

# The names that objects have or ask for, but those of the library's own prefix.
names_of() {
    riscv64-unknown-elf-nm -g "$@" | awk 'NF > 1 && $NF !~ /^sfi_device_/ { print $NF }' | sort -u | paste -sd ' '
}

try_names() { # what the library is built for; words of gcc
    local source objects=()
    for source in "$library"/*.S "$library"/*.c "$library"/ports/*.[cS]; do
        case $source in */checker.c | */decisions.c) continue ;; esac # which wants what checker.sh makes
        objects+=("$room/$(basename "${source//./_}").o")
        riscv64-unknown-elf-gcc -std=c11 -Os -Wall -Wextra -Werror -march=rv32im_zicsr_zifencei -mabi=ilp32 -mcmodel=medany -ffreestanding \
            "${@:2}" -I"$shared" -I"$library" -I"$shared/../../crates/sfi_c/include" -I"$shared/../../crates/sfi_slots/include" -c -o "${objects[-1]}" "$source" 2>&1
    done
    report "the library's names, for $1" "memcpy memset" "$(names_of "${objects[@]}")"
}

# A firmware in C++ that gives the library a table of services.
try_cpp() { # a compiler, and words for it
    if ! has "$1"; then
        skip 1 "the library's header in C++" "$1 isn't there"
        return
    fi
    cat >"$room/firmware.cpp" <<'END_OF_FIRMWARE'
#include "sfi_device_slots.h"
#include "sfi_device_store.h"
#include "sfi_device_sv32.h"

static sfi_device_outcome leave(void *, sfi_device_sandbox *, sfi_device_call *) { return SFI_DEVICE_LEFT; }
static sfi_device_service *const services[] = {leave};
extern const sfi_device_firmware firmware;
const sfi_device_firmware firmware = {services, 1, nullptr, nullptr, nullptr};

sfi_device_state run(sfi_device_sandbox &sandbox);
sfi_device_state run(sfi_device_sandbox &sandbox) {
    if (sandbox.state == SFI_DEVICE_READY)
        sfi_device_turn(&firmware, &sandbox, 1000);
    return sandbox.state;
}
END_OF_FIRMWARE
    succeeds "the header in C++, by $1" "$@" -std=c++17 -Wall -Wextra -Wpedantic -Werror -fsyntax-only -I"$library" \
        -I"$shared/../../crates/sfi_c/include" -I"$shared/../../crates/sfi_slots/include" "$room/firmware.cpp"
}

# The least firmware that takes the library in: it asks for each part of it.
least_firmware() {
    cat <<'END_OF_FIRMWARE'
#include "sfi_device_slots.h"
#include "sfi_device_store.h"

void sfi_device_trap_of_host(void);
void sfi_device_trap_of_host(void) {}
void *memset(void *to, int byte, size_t length);
void *memset(void *to, int byte, size_t length) {
    for (size_t at = 0; at < length; at++)
        ((volatile unsigned char *)to)[at] = (unsigned char)byte;
    return to;
}
void *memcpy(void *restrict to, const void *restrict from, size_t length);
void *memcpy(void *restrict to, const void *restrict from, size_t length) {
    for (size_t at = 0; at < length; at++)
        ((volatile unsigned char *)to)[at] = ((const unsigned char *)from)[at];
    return to;
}

void _start(void);
void _start(void) {
    static struct sfi_device_sandbox sandbox;
    static const struct sfi_device_firmware firmware;
    static struct sfi_device_store store;
    sfi_device_write_protection();
    sfi_device_store_open(&store);
    sfi_device_turn(&firmware, &sandbox, 1);
}
END_OF_FIRMWARE
}

by_cmake() { # a project's folder, where it is built, words of CMake
    cmake -S "$1" -B "$2" -DCMAKE_SYSTEM_NAME=Generic -DCMAKE_TRY_COMPILE_TARGET_TYPE=STATIC_LIBRARY "${@:3}" \
        -DCMAKE_C_COMPILER=riscv64-unknown-elf-gcc "-DCMAKE_C_FLAGS=$machine -Os -Werror -ffreestanding" "-DCMAKE_ASM_FLAGS=$machine" &&
        cmake --build "$2"
}

# The library is built and installed by CMake, and the firmware finds it, by CMake and by pkg-config.
try_cmake() {
    if ! has cmake || ! has pkg-config; then
        skip 5 "the library by CMake and pkg-config" "cmake or pkg-config isn't there"
        return
    fi
    local machine="-march=rv32imac_zicsr_zifencei -mabi=ilp32" prefix=$room/prefix least=$room/least config="-DSFI_DEVICE_CONFIG=$shared"
    report "CMake refuses a port that isn't there" "SFI_DEVICE_PORT is mmu: there are pmp, sv32 and none" \
        "$(by_cmake "$library" "$room/mmu" "$config" -DSFI_DEVICE_PORT=mmu 2>&1 | sed -n 's/^ *\(SFI_DEVICE_PORT is\)/\1/p')"
    succeeds "the library by CMake" by_cmake "$library" "$room/cmake" "$config"
    succeeds "the library is installed" cmake --install "$room/cmake" --prefix "$prefix"
    mkdir -p "$least"
    least_firmware >"$least/firmware.c"
    cat >"$least/CMakeLists.txt" <<'END_OF_LISTS'
cmake_minimum_required(VERSION 3.16)
project(firmware LANGUAGES C ASM)
find_package(sfi_device 0.1 REQUIRED)
add_executable(firmware firmware.c)
target_link_libraries(firmware PRIVATE sfi_device::sfi_device)
target_link_options(firmware PRIVATE -nostdlib)
END_OF_LISTS
    succeeds "a firmware by find_package" by_cmake "$least" "$least/out" "-Dsfi_device_DIR=$prefix/lib/cmake/sfi_device"
    # shellcheck disable=SC2046,SC2086 # words
    succeeds "a firmware by pkg-config" riscv64-unknown-elf-gcc $machine -Os -ffreestanding -nostdlib -o "$least/firmware" \
        "$least/firmware.c" $(PKG_CONFIG_PATH=$prefix/lib/pkgconfig pkg-config --cflags --libs sfi_device)
}

# The crate for Rust: its declarations are those of the headers, and updates by it, on this machine.
try_rust() {
    if ! has cargo || ! has gcc; then
        skip 1 "the library's crate for Rust" "cargo or gcc isn't there"
        return
    fi
    mkdir -p "$room/host"
    local source
    for source in store sha256; do
        succeeds "$source.c on this machine" gcc -std=c11 -O2 -Wall -Wextra -Wconversion -Werror -c -o "$room/host/$source.o" "$library/$source.c"
    done
    ar rcs "$room/host/libsfi_device.a" "$room/host/"*.o
    succeeds "the library's crate for Rust" env -C "$library/rust" "RUSTFLAGS=-D warnings -L native=$room/host" \
        cargo test -q --offline --locked --target-dir "$room/host/target"
}

# Values of the module's memory at each place, and moves over each other, beside memcpy and memmove; and that an access, by its
# base and offset, stops where its addresses are neither the module's own nor the image's.
reading_and_writing() {
    cat <<'END_OF_PROGRAM'
#include "reach.h"
#include <assert.h>
#include <setjmp.h>
#include <string.h>

struct checker_memory sfi_device_checker_memory;
struct reach sfi_device_image_reach = {300000, 5000};
static jmp_buf stopped;

_Noreturn void stop_module(void) {
    longjmp(stopped, 1);
}

static void reach_from(uint32_t base, uint32_t offset, uint32_t length) {
    volatile bool stops = setjmp(stopped) != 0;
    if (!stops)
        assert(reached(base, offset, length) == module_byte(base) + offset);
    assert(stops == !module_reaches(base + offset, length));
}

static void reach_around(uint32_t border) {
    for (uint32_t away = 0; away < 24; away++)
        for (uint32_t offset = 0; offset < 16000; offset = offset < 24 ? offset + 1 : 2 * offset - 15)
            for (uint32_t length = 1; length <= 8; length *= 2) {
                reach_from(border - 12 + away, offset, length);
                reach_from(border - 12 + away - offset, offset, length);
            }
}

static uint8_t bytes[32] __attribute__((aligned(8))), wanted[32];

static void fill(void) {
    for (uint8_t at = 0; at < 32; at++)
        bytes[at] = wanted[at] = (uint8_t)(251 - 7 * at);
}

#define TRY(type, at)                                                               \
    do {                                                                            \
        type found, same, other = (type)0x8091a2b3c4d5e6f7;                         \
        fill();                                                                     \
        read_value(&found, bytes + at, sizeof(type));                               \
        memcpy(&same, wanted + at, sizeof(type));                                   \
        write_value(bytes + at, &other, sizeof(type));                              \
        memcpy(wanted + at, &other, sizeof(type));                                  \
        assert(found == same && memcmp(bytes, wanted, 32) == 0);                    \
    } while (0)

int main(void) {
    for (uint32_t at = 0; at < 16; at++) {
        TRY(uint8_t, at);
        TRY(uint16_t, at);
        TRY(uint32_t, at);
        TRY(uint64_t, at);
    }
    for (uint32_t tried = 0; tried < 14 * 14 * 18; tried++) {
        uint32_t to = tried % 14, from = tried / 14 % 14, length = tried / 14 / 14;
        fill();
        move_bytes(bytes + to, bytes + from, length);
        memmove(wanted + to, wanted + from, length);
        assert(memcmp(bytes, wanted, 32) == 0);
    }
    const uint32_t own = LINKED_STACK - MODULE_STACK, size = sizeof(struct checker_memory);
    const uint32_t borders[] = {0, own, own + MODULE_STACK, own + MODULE_STACK + MODULE_DATA, own + size, 300000, 305000};
    for (uint32_t index = 0; index < sizeof borders / sizeof *borders; index++)
        reach_around(borders[index]);
}
END_OF_PROGRAM
}

try_values() {
    if ! has gcc; then
        skip 2 "values of the checker's memory" "gcc isn't there"
        return
    fi
    reading_and_writing >"$room/values.c"
    succeeds "the module's accesses on this machine" gcc -std=gnu11 -O2 -Wall -Wextra -Werror -fsanitize=undefined -fno-sanitize-recover \
        -I"$library" -I"$shared/../../crates/sfi_c/include" -I"$shared/../../crates/sfi_slots/include" -o "$room/values" "$room/values.c"
    succeeds "values of the checker's memory" "$room/values"
}

# A host that gives turns to what has stopped, too: it makes no step more.
try_turns() {
    "$SFI" build <<<$'.sandbox 256\n.gate exit 0\n call exit' >"$room/image.hex"
    edit_host examples/device/rounds.c 's/\.state == SFI_DEVICE_READY/.state != SFI_DEVICE_EMPTY/'
    report "turns of a sandbox that has stopped" "$("$SFI" run --rounds 3 <"$room/image.hex")" \
        "$(cd "$edited" && OUT=$room/edited_out run --rounds 3 --steps <"$room/image.hex")"
}

try_library() {
    try_names "S-mode"
    try_names "M-mode" -DMICROCONTROLLER -Imcu/chips/sifive_e
    try_values
    try_cpp g++
    try_cpp riscv64-unknown-elf-g++ -march=rv32imc -mabi=ilp32 -ffreestanding
    try_cmake
    try_rust
    try_turns
}
