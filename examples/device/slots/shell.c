/* A shell on the serial line. Each line of it is a command, its numbers hexadecimal:
       update SLOT LENGTH      an image of LENGTH bytes comes for the slot ..
       add LENGTH              an image for any place comes for the first slot that has none
       piece DIGITS            .. in pieces of at most PIECE_MOST bytes; after the last one it is judged
       start SLOT              the current version anew
       kill SLOT
       call SLOT PC A0 A1      a function of a plug-in that has stopped; its data stay
       remove SLOT             its versions; another slot's plug-in may then have their place
       show SLOT
       sums                    of what no plug-in may change: the host, code in its place, each slot's data
       watchdog                how often it was fed between pieces, and the most instructions between two feeds
       end
   and is answered by a line. Between two lines each plug-in that is ready has a turn. */
#include "slots.h"

enum { PIECE_MOST = 256, LINE_MOST = 2 * PIECE_MOST + 16, POLLS = 1000, SHOWN_MOST = 32, NO_SLOT = SLOTS };

static char line[LINE_MOST + 1]; /* with a 0 after it */
static uint32_t line_length;
static const char *at; /* what isn't read of it */

static struct {
    uint8_t *memory;
    uint32_t slot, length, arrived;
    bool moves;
} update; /* NO_SLOT where none is on its way */

/* ---- Words of a line */

static bool takes(const char *word) {
    const char *rest = at;
    while (*word != 0 && *rest == *word)
        rest++, word++;
    if (*word != 0 || (*rest != ' ' && *rest != 0))
        return false;
    at = *rest == ' ' ? rest + 1 : rest;
    return true;
}

static int digit(char letter) {
    if (letter >= '0' && letter <= '9')
        return letter - '0';
    return letter >= 'a' && letter <= 'f' ? letter - 'a' + 10 : -1;
}

/* A number of one to eight digits, and the space after it. */
static bool take_number(uint32_t *number) {
    uint32_t count = 0;
    for (*number = 0; digit(*at) >= 0; at++, count++)
        *number = *number << 4 | (uint32_t)digit(*at);
    if (*at == ' ')
        at++;
    else if (*at != 0)
        return false;
    return count >= 1 && count <= 8;
}

static bool take_slot(uint32_t *number) {
    return take_number(number) && *number < SLOTS;
}

static bool is_over(void) {
    return *at == 0;
}

/* ---- Answers */

static void item(const char *what, uint32_t number) {
    print(what);
    print_decimal(number);
}

static void print_state(const struct sfi_device_sandbox *sandbox) {
    if (sandbox->state == SFI_DEVICE_EMPTY)
        return print(" empty");
    if (sandbox->state == SFI_DEVICE_READY)
        return print(" ready");
    if (sandbox->state == SFI_DEVICE_EXITED)
        return item(" exit=", sandbox->exit_code);
    print(" trap=");
    print(sandbox->trap);
    print(" at=");
    print_hex(sandbox->trap_address, 8);
}

static void print_slot(uint32_t number, const char *what) {
    const struct plugin *plugin = &world.plugins[number];
    item("slot=", number);
    print(" ");
    print(what);
    item(": version=", sfi_device_current(&slots, number)->number);
    if (sfi_device_current(&slots, number)->state == SFI_SLOT_ON_TRIAL)
        print(" on trial");
    print_state(&plugin->sandbox);
    item(" put=", plugin->output_length);
    if (plugin->output_length > 0)
        print(" ");
    for (uint32_t k = 0; k < plugin->output_length && k < SHOWN_MOST; k++)
        print_hex(plugin->output[k], 2);
    print("\n");
}

void tell_news(uint32_t number, enum sfi_device_news news) {
    print_slot(number, news == SFI_DEVICE_NO_REPORT ? "no report" : "older version");
}

static void answer(bool is_done, uint32_t number, const char *what) {
    if (is_done)
        print_slot(number, what);
    else
        print("no\n");
}

/* ---- Commands */

static void await_update(uint32_t number, bool moves) {
    uint32_t length;
    uint8_t *memory;
    if (number >= SLOTS || !take_number(&length) || !is_over() || length == 0 || length > IMAGE_MOST ||
        (memory = sfi_device_begin_update(&slots, number)) == NULL)
        return print("no\n");
    update.memory = memory;
    update.slot = number;
    update.length = length;
    update.arrived = 0;
    update.moves = moves;
    print("awaits=");
    print_hex(length, 1 + 4);
    print("\n");
}

static void begin_update(void) {
    uint32_t number;
    await_update(take_slot(&number) ? number : NO_SLOT, false);
}

static void judge_update(void) {
    static const char *const reasons[] = {
        [SFI_DEVICE_NOT_ONE_PLUGIN] = "not one plug-in", [SFI_DEVICE_NOT_ITS_PLACE] = "not the slot's place",
        [SFI_DEVICE_NOT_APART] = "not apart from another slot", [SFI_DEVICE_NOT_BEGUN] = "not begun",
        [SFI_DEVICE_NOT_PLACED] = "not placed"
    };
    struct sfi_verdict verdict = {0};
    uint32_t number = update.slot;
    enum sfi_device_status status;
    update.slot = NO_SLOT;
    enum sfi_device_update outcome = sfi_device_end_update(&slots, number, update.length, update.moves, &status, &verdict);
    if (outcome == SFI_DEVICE_STARTED)
        return print_slot(number, "started");
    item("slot=", number);
    print(" stays: ");
    if (outcome == SFI_DEVICE_UPDATE_REFUSED && status == SFI_DEVICE_NO_ZONE_AT_ZERO)
        print("the zone at zero of its format isn't closed here");
    else if (outcome == SFI_DEVICE_UPDATE_REFUSED)
        print_verdict(status, &verdict);
    else
        print(reasons[outcome]);
    print("\n");
}

static void take_piece(void) {
    uint32_t count = 0;
    if (update.slot == NO_SLOT)
        return print("no\n");
    uint8_t *memory = update.memory + update.arrived;
    for (; digit(at[0]) >= 0 && digit(at[1]) >= 0; at += 2, count++) {
        if (count == PIECE_MOST || count == update.length - update.arrived)
            return print("no\n");
        memory[count] = (uint8_t)(digit(at[0]) << 4 | digit(at[1]));
    }
    if (!is_over() || count == 0)
        return print("no\n");
    update.arrived += count;
    if (update.arrived == update.length)
        return judge_update();
    print("awaits=");
    print_hex(update.length - update.arrived, 1 + 4);
    print("\n");
}

static void call_function(void) {
    uint32_t number, pc, arguments[SFI_DEVICE_ARGUMENTS] = {0};
    bool is_right = take_slot(&number) && take_number(&pc) && take_number(&arguments[0]) &&
                    take_number(&arguments[1]) && is_over() && sfi_device_call_slot(&slots, number, pc, arguments);
    answer(is_right, number, "called");
}

static uint32_t sum_of(const uint8_t *bytes, uint32_t length) {
    uint32_t sum = 0;
    for (uint32_t k = 0; k < length; k++)
        sum = sum * 31 + bytes[k];
    return sum;
}

/* The code of each plug-in is compared with the image that was judged: `none` where a slot is empty. */
static void print_sums(void) {
    extern const uint8_t start[], text_end[];
    print("host=");
    print_hex(sum_of(start, (uint32_t)text_end - (uint32_t)start), 8);
    for (uint32_t number = 0; number < SLOTS; number++) {
        const struct sfi_device_sandbox *sandbox = &world.plugins[number].sandbox;
        print(sandbox->state == SFI_DEVICE_EMPTY ? " none" : sfi_device_is_code_in_place(&sandbox->part) ? " code" : " changed");
        print(" data=");
        print_hex(sum_of((const uint8_t *)slots.slots[number].data_base, SLOT_DATA), 8);
    }
    print("\n");
}

static void print_watchdog(void) {
    item("between-pieces=", fed_between_pieces);
    item(" longest=", longest_unfed);
    print("\n");
}

static void obey(void) {
    uint32_t number = 0;
    at = line;
    if (takes("update"))
        begin_update();
    else if (takes("add"))
        await_update(sfi_device_free_slot(&slots), true);
    else if (takes("piece"))
        take_piece();
    else if (takes("start"))
        answer(take_slot(&number) && is_over() && sfi_device_start_slot(&slots, number), number, "started");
    else if (takes("kill"))
        answer(take_slot(&number) && is_over() && sfi_device_kill_slot(&slots, number), number, "killed");
    else if (takes("call"))
        call_function();
    else if (takes("remove"))
        answer(take_slot(&number) && is_over() && sfi_device_remove_slot(&slots, number), number, "removed");
    else if (takes("show"))
        answer(take_slot(&number) && is_over(), number, "is");
    else if (takes("sums"))
        print_sums();
    else if (takes("watchdog"))
        print_watchdog();
    else if (takes("end"))
        finish();
    else
        print("no\n");
}

/* ---- Bytes of a line. One that is too long is read to its end, and answered by `no` */

static bool is_line(char letter) {
    if (letter != '\n') {
        if (line_length < LINE_MOST)
            line[line_length] = letter == 0 ? '?' : letter;
        line_length++;
        return false;
    }
    line[line_length <= LINE_MOST ? line_length : 0] = 0;
    line_length = 0;
    return true;
}

/* Takes what comes, until a line is over or no byte has come for a while. */
static void take_bytes(void) {
    for (uint32_t polls = 0; polls < POLLS; polls++) {
        int byte = receive();
        if (byte == NO_BYTE)
            continue;
        polls = 0;
        if (is_line((char)byte))
            return obey();
    }
}

void judge(void) {}

void run_host(void) {
    update.slot = NO_SLOT;
    start_slots();
    start_interrupts();
    print("slots\n");
    for (;;) {
        feed_watchdog();
        sfi_device_run_slots(&slots);
        take_bytes();
    }
}
