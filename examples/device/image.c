/* The sandboxes of an image, as the checker tells them (checker.c of device/, or unchecked.c). */
#include "host.h"

void empty(struct plugin *plugin) {
    memset(plugin, 0, sizeof *plugin);
}

uint32_t number_of(const struct world *world, const struct sfi_device_sandbox *sandbox) {
    return (uint32_t)((const struct plugin *)sandbox - world->plugins);
}

void start_world(struct world *world, const struct arguments *arguments) {
    world->firmware = (struct sfi_device_firmware){services, service_count, world, interrupt_after, answer_interrupt};
    world->arguments = arguments;
}

static const char no_verdict[] = "the checker stopped";

/* Answers whether there is a sandbox of that number. */
static bool tell(const uint8_t *image, uint32_t length, uint32_t number, struct sfi_device_part *part) {
    enum sfi_device_status status = sfi_device_tell(image, length, number, part);
    if (status != SFI_DEVICE_DONE && status != SFI_DEVICE_NO_SANDBOX)
        refuse(no_verdict);
    return status == SFI_DEVICE_DONE;
}

/* Answers how many sandboxes there are. */
static uint32_t read_sandboxes(const uint8_t *image, uint32_t length, struct plugin plugins[]) {
    struct sfi_device_part part;
    for (uint32_t count = 0; count < SANDBOXES_MOST; count++) {
        if (!tell(image, length, count, &part))
            return count;
        empty(&plugins[count]);
        sfi_device_enter_start(&plugins[count].sandbox, &part);
    }
    if (tell(image, length, SANDBOXES_MOST, &part))
        refuse_number("there is room for ", SANDBOXES_MOST, " sandboxes");
    return SANDBOXES_MOST;
}

/* The line and status of `sfi check`, after the loader's name. */
static void judge_image(const uint8_t *image, uint32_t length) {
    struct sfi_verdict verdict = {0};
    enum sfi_device_status status = sfi_device_check(image, length, between_pieces, NULL, &verdict);
    if (status == SFI_DEVICE_DONE)
        return;
    print("device: ");
    print_verdict(status, &verdict);
    print("\n");
    fail(status == SFI_DEVICE_NOT_ACCEPTED && verdict.status == SFI_REFUSED ? 1 : 2);
}

void read_image(struct world *world, uint32_t arguments, uint32_t image, uint32_t input) {
    const uint8_t *bytes = (const uint8_t *)image;
    start_world(world, (const struct arguments *)arguments);
    world->input = (const uint8_t *)input;
    judge_image(bytes, world->arguments->image_length);
    world->count = read_sandboxes(bytes, world->arguments->image_length, world->plugins);
}

void test_guards(const struct world *world) {
    for (uint32_t number = 0; number < world->count; number++)
        refuse_fault(number, sfi_device_try_guards(&world->firmware, &world->plugins[number].sandbox.part));
}
