/* Runs the native code of an accepted image on x86-64 Linux: for hosts in C11 that define _GNU_SOURCE before the first header. The
   file must be what `sfi native` wrote of this image, kept with it: only its checksum and the sandboxes' fields are compared. The
   image's translation (sfi_native.h) has the sandboxes, and the steps that code leaves to the host. A thread that takes turns doesn't
   block SIGSEGV and SIGBUS, nor leave a turn by longjmp. Where masks have two steps, a typed register with what its type forbids
   reaches 4 GiB off the data (docs/IMAGE.md). Not proved: that this file keeps crates/sfi_native/specs (File, Layout, Table, Faults,
   Host, Whole). */
#ifndef SFI_NATIVE_CODE_H
#define SFI_NATIVE_CODE_H
#include "sfi_native_guards.h"
#if !defined(__x86_64__) || !defined(__LP64__) || !defined(__linux__)
#error "native code wants Linux on x86-64, with pointers of 64 bits"
#endif
enum { SFI_ASSIGNABLE = 0x3fe8, SFI_KEPT = 14, SFI_FIXED = 0xf000001, SFI_COUNTED = 0x7fffffff };  /* rbx, rbp, rsi, rdi, r8 to r13; x0, x24 to x27 */
enum { SFI_FRONT = 24, SFI_FIELDS = 28, SFI_PLACES = 32, SFI_ACCESS = 12, SFI_BACK = 8, SFI_IN_FRAME = 255 };  /* in the file: specs/File.antt */

/* A sandbox's code in a map of its own: the text, up to the way out; behind it, not to be executed, the table, which has each unit's
   entry and the steps owed there at twice its offset (specs/Table.antt), and the accesses. `held`: which register is in each of
   the processor's at entry, 0 for none: the others are in the frame. */
struct sfi_code {
    const struct sfi_sandbox *sandbox;
    uint8_t *text, *table, *access;
    size_t size, exit, accesses;
    uint8_t held[SFI_KEPT];
};
static const uint8_t sfi_way_out[] = { 0xff, 0xa4, 0x24, 0x90, 0, 0, 0 };  /* jmp *144(%rsp) */

static sfi_u32 sfi_number(const uint8_t *at) {
    sfi_u32 number;
    memcpy(&number, at, sizeof number);
    return number;
}

/* Four bytes at a time: table[k] has the remainder of each byte with k more behind it. */
static sfi_u32 sfi_crc32(const uint8_t *bytes, size_t length) {
    sfi_u32 table[4][256], crc = ~0u;
    for (sfi_u32 k = 0; k < 256; k++) {
        sfi_u32 entry = k;
        for (int bit = 0; bit < 8; bit++)
            entry = entry >> 1 ^ (entry & 1 ? 0xedb88320 : 0);
        table[0][k] = entry;
    }
    for (sfi_u32 k = 0; k < 3 * 256; k++)
        table[k / 256 + 1][k % 256] = table[k / 256][k % 256] >> 8 ^ table[0][table[k / 256][k % 256] & 255];
    for (; length >= 4; bytes += 4, length -= 4) {
        crc ^= sfi_number(bytes);
        crc = table[3][crc & 255] ^ table[2][crc >> 8 & 255] ^ table[1][crc >> 16 & 255] ^ table[0][crc >> 24];
    }
    for (; length > 0; bytes++, length--)
        crc = crc >> 8 ^ table[0][(crc ^ *bytes) & 255];
    return ~crc;
}

/* Enters the code at `at`. x is copied into the frame (144 bytes at rsp, with kept[0] and kept[1] behind x) and back. Above it lie the
   way out's target, x and kept. kept[n] is register n at entry; the plan's registers and r14 are written back. Returns edx, the pc. */
sfi_u32 sfi_enter_code(sfi_u32 x[32], uintptr_t kept[16], sfi_u32 pc, const uint8_t *at) __attribute__((visibility("hidden")));
__asm__(".pushsection .text\n.weak sfi_enter_code; .hidden sfi_enter_code\nsfi_enter_code:\n push %rbx; push %rbp; push %r12; push %r13\n"
        " push %r14; push %r15; sub $168,%rsp; lea 1f(%rip),%rax; mov %rax,144(%rsp); mov %rdi,152(%rsp); mov %rsi,160(%rsp); mov %rsi,%rax\n"
        " movups (%rax),%xmm0; movups %xmm0,128(%rsp)\n .irp k,0,1,2,3,4,5,6,7\n movups 16*\\k(%rdi),%xmm0; movups %xmm0,16*\\k(%rsp)\n .endr\n"
        " mov 24(%rax),%rbx; mov 40(%rax),%rbp; mov 48(%rax),%rsi; mov 56(%rax),%rdi\n"
        " .irp r,8,9,10,11,12,13,14,15\n mov 8*\\r(%rax),%r\\r\n .endr\n jmp *%rcx\n"
        "1: mov 160(%rsp),%rax; mov %rbx,24(%rax); mov %rbp,40(%rax); mov %rsi,48(%rax); mov %rdi,56(%rax)\n"
        " .irp r,8,9,10,11,12,13,14\n mov %r\\r,8*\\r(%rax)\n .endr\n mov 152(%rsp),%rdi; mov %edx,%eax\n"
        " .irp k,0,1,2,3,4,5,6,7\n movups 16*\\k(%rsp),%xmm0; movups %xmm0,16*\\k(%rdi)\n .endr\n"
        " add $168,%rsp; pop %r15; pop %r14; pop %r13; pop %r12; pop %rbp; pop %rbx; ret\n.popsection\n");

/* The turn that a thread is in. */
static _Thread_local struct { const struct sfi_code *code; const uint8_t *data; } sfi_running __attribute__((tls_model("initial-exec")));

/* The access at that offset in the text, or NULL. They are in order. */
static const uint8_t *sfi_access_at(const struct sfi_code *code, uintptr_t offset) {
    size_t low = 0, high = code->accesses;
    while (low < high) {
        const size_t middle = low + (high - low) / 2;
        const uint8_t *const at = code->access + SFI_ACCESS * middle;
        if (sfi_number(at) == offset)
            return at;
        if (sfi_number(at) < offset)
            low = middle + 1;
        else
            high = middle;
    }
    return NULL;
}

/* Takes a fault if rip is an access of the running code and the address in the window, beside the data: goes out, the pc in edx and
   nothing owed. */
static int sfi_takes_fault(uintptr_t address, greg_t registers[]) {
    const struct sfi_code *const code = sfi_running.code;
    const uintptr_t place = address - (uintptr_t)sfi_running.data;
    if (code == NULL)
        return 0;
    const struct sfi_window window = sfi_window_of(code->sandbox, 1);
    if (place < code->sandbox->data_size || place + window.below >= window.size)
        return 0;
    const uint8_t *const at = sfi_access_at(code, (uintptr_t)registers[REG_RIP] - (uintptr_t)code->text);
    if (at == NULL)
        return 0;
    registers[REG_RDX] = sfi_number(at + 4);
    registers[REG_R14] = (sfi_u32)registers[REG_R14] - sfi_number(at + 8);
    registers[REG_RIP] = (greg_t)(uintptr_t)(code->text + code->exit);
    return 1;
}

static void sfi_unmap_code(struct sfi_code codes[], size_t count) {  /* while no turn of them is under way */
    while (count-- != 0)
        munmap(codes[count].text, codes[count].size);  /* fails where nothing was mapped */
}

/* Reads where registers are. Whether no two are in one, and none where it can't be. */
static int sfi_hold_registers(const uint8_t *places, struct sfi_code *code) {
    const sfi_u32 fixed = SFI_FIXED & ~(code->sandbox->single << 26);  /* x26 is a typed register there */
    sfi_u32 free = SFI_ASSIGNABLE;
    for (int r = 0; r < SFI_PLACES; r++) {
        const uint8_t place = places[r];
        if (place == SFI_IN_FRAME)
            continue;
        if (place >= SFI_KEPT || !(free >> place & 1) || fixed >> r & 1)
            return 0;
        free &= ~(1u << place);
        code->held[place] = (uint8_t)r;
    }
    return 1;
}

static int sfi_is_ordered(const uint8_t *access, size_t accesses) {
    for (size_t k = 1; k < accesses; k++)
        if (sfi_number(access + SFI_ACCESS * (k - 1)) >= sfi_number(access + SFI_ACCESS * k))
            return 0;
    return 1;
}

/* Maps a sandbox's code: places, sizes (both before `end`), rows of the table, accesses and text, from `at`. Returns where it ends, or NULL. */
static const uint8_t *sfi_map_sandbox(const uint8_t *at, const uint8_t *end, const struct sfi_sandbox *s, struct sfi_code *code) {
    const size_t exit = sfi_number(at + SFI_PLACES), accesses = sfi_number(at + SFI_PLACES + 4), units = s->code_size / s->unit;
    const size_t text = (exit + sizeof sfi_way_out + SFI_ZONE - 1) / SFI_ZONE * SFI_ZONE, listed = SFI_ACCESS * accesses;
    const uint8_t *const entry = at + SFI_PLACES + 8, *const access = entry + 8 * units;
    const size_t rows = 2 * (size_t)s->code_size, size = text + rows + listed;
    const int is_there = (size_t)(end - entry) >= 8 * units + listed + exit;
    uint8_t *const map = is_there ? mmap(NULL, size, PROT_READ | PROT_WRITE, MAP_PRIVATE | MAP_ANONYMOUS, -1, 0) : MAP_FAILED;
    if (map == MAP_FAILED)
        return NULL;
    *code = (struct sfi_code){ .sandbox = s, .text = map, .table = map + text, .access = map + text + rows, .size = size, .exit = exit,
        .accesses = accesses };
    for (size_t unit = 0; unit < units; unit++)
        memcpy(code->table + 2 * s->unit * unit, entry + 8 * unit, 8);
    if (!sfi_hold_registers(at, code) || !sfi_is_ordered(access, accesses))
        return NULL;
    memcpy(code->access, access, listed);
    memcpy(map, access + listed, exit);
    memcpy(map + exit, sfi_way_out, sizeof sfi_way_out);
    return mprotect(map, size, PROT_READ) || mprotect(map, text, PROT_READ | PROT_EXEC) ? NULL : access + listed + exit;
}

static int sfi_is_native_file(const uint8_t *file, size_t length, size_t count) {
    return length >= SFI_FRONT + SFI_BACK && memcmp(file, "SFIN\5\0\0", 8) == 0 && sfi_number(file + SFI_FRONT - 4) == count &&
        sfi_number(file + length - 8) == (sfi_u32)(length - 8) && sfi_number(file + length - 4) == sfi_crc32(file, length - 4);
}

/* Maps the code of each sandbox, whose data are whole pages. 0 where the file isn't whole, has other fields, or memory isn't to be had. */
static int sfi_map_code(const uint8_t *file, size_t length, const struct sfi_sandbox sandboxes[], size_t count, struct sfi_code codes[]) {
    const uint8_t *at = sfi_is_native_file(file, length, count) ? file + SFI_FRONT : NULL, *const end = at ? file + length - SFI_BACK : NULL;
    memset(codes, 0, count * sizeof *codes);
    for (const struct sfi_sandbox *s = sandboxes; at != NULL && s < sandboxes + count; s++) {
        const sfi_u32 is_single = file[19] == 'S', unit = is_single || file[19] == 'W' ? 4 : 16;
        const int is_of_it = end - at >= SFI_FIELDS + SFI_PLACES + 8 && memcmp(at, &s->code, SFI_FIELDS) == 0 && s->data_size % SFI_ZONE == 0;
        at = is_of_it && s->unit == unit && s->single == is_single ? sfi_map_sandbox(at + SFI_FIELDS, end, s, &codes[s - sandboxes]) : NULL;
    }
    sfi_unmap_code(codes, at != NULL && at == end ? 0 : count);
    return at != NULL && at == end;
}

#define SFI_PLACED(X) X(3) X(5) X(6) X(7) X(8) X(9) X(10) X(11) X(12) X(13)  /* SFI_ASSIGNABLE */

/* Runs code from that row of the table with the low 31 bits of `left`; returns with pc at the next step. Not inlined: one frame for all
   rounds. It relies on what lies above the frame, on kept, the callers' stack and the table (`relies`, specs/Host.antt). */
__attribute__((noinline)) static void sfi_run_code(const struct sfi_code *code, struct sfi_hart *h, const uint8_t *row) {
    const sfi_u32 before = h->left & SFI_COUNTED;
    uintptr_t kept[16] = { (uintptr_t)code->table - 2 * (uintptr_t)code->sandbox->code, (uintptr_t)code->text,
        [14] = before + sfi_number(row + 4), [15] = (uintptr_t)h->data - code->sandbox->data };
#define SFI_TAKE_IN(place) kept[place] = h->x[code->held[place]];
    SFI_PLACED(SFI_TAKE_IN)
    h->pc = sfi_enter_code(h->x, kept, h->pc, code->text + sfi_number(row));
#define SFI_TAKE_OUT(place) h->x[code->held[place]] = (sfi_u32)kept[place];
    SFI_PLACED(SFI_TAKE_OUT)
    h->x[0] = 0;
    h->left -= before - (sfi_u32)kept[14];
}

/* As sfi_turn of sfi_native.h, by this code, of data that sfi_new_data made for code. Code is entered as `from_loop` says
   (crates/sfi_translate/specs/Machine.antt); where it has come out a step of the host comes first: a faulting access does so again. */
static int sfi_native_turn(const struct sfi_code *code, struct sfi_hart *h, sfi_u32 *at) {
    const struct sfi_sandbox *const s = code->sandbox;
    const __typeof__(sfi_running) outer = sfi_running;
    int how = SFI_NEXT;
    sfi_running = (__typeof__(sfi_running)){ code, h->data };
    while (how == SFI_NEXT && h->left != 0) {
        const sfi_u32 offset = h->pc - s->code;
        const uint8_t *const row = offset < s->code_size && offset % s->unit == 0 ? code->table + 2 * (size_t)offset : NULL;
        if ((h->left & SFI_COUNTED) >= SFI_MOST && row != NULL && sfi_number(row) < code->exit)
            sfi_run_code(code, h, row);
        how = sfi_step(s, h, at);
    }
    sfi_running = outer;
    return how;
}
#endif
