/* The lines of `sfi run` on the serial line, and those of a loader that goes no further. */
#include "host.h"

void print(const char *text) {
    while (*text)
        send(*text++);
}

void print_hex(uint32_t number, unsigned digits) {
    while (digits-- > 0)
        send("0123456789abcdef"[number >> 4 * digits & 15]);
}

void print_decimal(uint64_t number) {
    char digits[20]; /* of the largest number */
    unsigned count = 0;
    do {
        digits[count++] = "0123456789"[number % 10];
        number /= 10;
    } while (number > 0);
    while (count > 0)
        send(digits[--count]);
}

void finish(void) {
    if (print_masked)
        print_masked();
    end(0);
}

void fail(uint32_t status) {
    end(status);
}

static const char *const refusal = "device: ";

void refuse(const char *reason) {
    print(refusal);
    print(reason);
    print("\n");
    fail(2);
}

void refuse_sandbox(uint32_t number, const char *reason) {
    print(refusal);
    print("sandbox ");
    print_decimal(number);
    print(": ");
    print(reason);
    print("\n");
    fail(2);
}

static _Noreturn void refuse_access(uint32_t number, const char *access, struct sfi_device_fault fault, const char *reason) {
    print(refusal);
    print("sandbox ");
    print_decimal(number);
    print(access);
    print_hex(fault.address, 8);
    print(reason);
    if (fault.status == SFI_DEVICE_IS_MIRRORED) {
        print_hex(fault.other, 8);
        print(", too");
    }
    print("\n");
    fail(2);
}

void refuse_number(const char *reason, uint32_t number, const char *more) {
    print(refusal);
    print(reason);
    print_decimal(number);
    print(more);
    print("\n");
    fail(2);
}

void refuse_fault(uint32_t number, struct sfi_device_fault fault) {
    switch (fault.status) {
    case SFI_DEVICE_DONE: return;
    case SFI_DEVICE_NO_GUARDS:
        refuse_sandbox(number, "code in words is held by guard zones that trap, and here none does");
    case SFI_DEVICE_NO_ZONE_AT_ZERO:
        refuse_sandbox(number, "its format wants the addresses below its data's size plus 4096 closed, and the last 4096, and here they aren't");
    case SFI_DEVICE_NO_ENTRY:
        refuse_sandbox(number, "no entry of physical memory protection is left for it");
    case SFI_DEVICE_NO_MEMORY:
        refuse_sandbox(number, "there is no room for it");
    case SFI_DEVICE_CODE_IS_HOST:
        refuse_sandbox(number, "its code is where the host is");
    case SFI_DEVICE_DATA_IS_HOST:
        refuse_sandbox(number, "its data or guard zones are where the host is");
    case SFI_DEVICE_OTHER_RULES:
        refuse("mseccfg isn't 0: physical memory protection has rules that this host doesn't know");
    case SFI_DEVICE_ENTRY_DIFFERS:
        refuse_number("entry ", fault.other, " of physical memory protection isn't as it was written");
    case SFI_DEVICE_GUARD_IS_OPEN:
        refuse_access(number, ": a load at ", fault, ", in its guard zone, doesn't trap");
    case SFI_DEVICE_DATA_IS_CLOSED:
        refuse_access(number, ": a load at ", fault, ", in its data, traps");
    case SFI_DEVICE_IS_MIRRORED:
        refuse_access(number, ": a store at ", fault, ", in its data, changes the byte at ");
    default:
        refuse("a fault that this host doesn't know");
    }
}

/* A trap of the host itself: start.S and fault.S come here. */
void host_fault(uint32_t cause, uint32_t pc) {
    print("device: a fault of the host, cause ");
    print_hex(cause, 8);
    print(" at ");
    print_hex(pc, 8);
    print("\n");
    fail(3);
}

static void print_state(const struct sfi_device_sandbox *sandbox) {
    switch (sandbox->state) {
    case SFI_DEVICE_EMPTY:
        break;
    case SFI_DEVICE_READY:
        print("ready");
        break;
    case SFI_DEVICE_EXITED:
        print("exit=");
        print_decimal(sandbox->exit_code);
        break;
    case SFI_DEVICE_TRAPPED:
        print("trap=");
        print(sandbox->trap);
        print(" at=");
        print_hex(sandbox->trap_address, 8);
    }
}

/* The data bytes that aren't what the image gave, each with its address. */
static void print_written(const struct sfi_device_part *part) {
    const char *before = " written=";
    for (uint32_t offset = 0; offset < part->data_size; offset++) {
        uint8_t byte = *(const uint8_t *)(part->data_base + offset);
        if (byte == (offset < part->first_count ? part->first[offset] : 0))
            continue;
        print(before);
        print_hex(part->data_base + offset, 8);
        print(":");
        print_hex(byte, 2);
        before = ",";
    }
}

static void print_sandbox(const struct world *world, uint32_t number) {
    const struct plugin *plugin = &world->plugins[number];
    const struct sfi_device_sandbox *sandbox = &plugin->sandbox;
    print("sandbox=");
    print_decimal(number);
    print(" ");
    print_state(sandbox);
    if (world->arguments->prints_steps) {
        print(" steps=");
        print_decimal(sandbox->steps);
    }
    print(" out=");
    for (uint32_t k = 0; k < plugin->output_length; k++)
        print_hex(plugin->output[k], 2);
    if (world->arguments->prints_written)
        print_written(&sandbox->part);
    print("\n");
}

static uint32_t half_at(const uint8_t *bytes) {
    return bytes[0] | (uint32_t)bytes[1] << 8;
}

/* The instruction's digits as `sfi run --report` has them; none where pc isn't in the code, to which
   accepted code never comes. */
static void print_instruction(const struct sfi_device_sandbox *sandbox) {
    uint32_t offset = sandbox->frame.pc - sandbox->part.code_base;
    if (offset >= sandbox->part.code_size || offset % 2 != 0)
        return;
    const uint8_t *bytes = sandbox->part.code + offset;
    uint32_t half = half_at(bytes);
    print(" ");
    if ((half & 3) != 3)
        print_hex(half, 4);
    else if (sandbox->part.code_size - offset >= 4)
        print_hex(half_at(bytes + 2) << 16 | half, 8);
}

/* By the image's names, if it has any. */
static void print_function(const struct sfi_device_sandbox *sandbox) {
    struct sfi_device_function function;
    if (!sfi_device_function_at(&sandbox->part, sandbox->frame.pc, &function))
        return;
    print(" in ");
    for (uint32_t at = 0; at < function.length; at++)
        send((char)function.name[at]);
    print("+");
    print_decimal(sandbox->frame.pc - function.address);
}

static void print_registers(const struct sfi_device_frame *frame) {
    for (uint32_t number = 1; number < 32; number++) {
        print("x");
        print_decimal(number);
        print("=");
        print_hex(frame->x[number], 8);
        print(number % 8 == 7 ? "\n" : " ");
    }
}

/* Of a sandbox that has trapped; with the registers, of each that hasn't exited. */
static void print_place(const struct world *world, uint32_t number) {
    const struct sfi_device_sandbox *sandbox = &world->plugins[number].sandbox;
    if (sandbox->state != SFI_DEVICE_TRAPPED && !(sandbox->state == SFI_DEVICE_READY && world->arguments->prints_registers))
        return;
    print("sandbox=");
    print_decimal(number);
    print(" pc=");
    print_hex(sandbox->frame.pc, 8);
    print_instruction(sandbox);
    if (sandbox->state == SFI_DEVICE_TRAPPED)
        print_function(sandbox);
    print("\n");
    if (world->arguments->prints_registers)
        print_registers(&sandbox->frame);
}

void print_world(const struct world *world) {
    for (uint32_t number = 0; number < world->count; number++)
        print_sandbox(world, number);
    for (uint32_t number = 0; number < world->count; number++)
        print_place(world, number);
}
