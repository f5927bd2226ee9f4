/* The serial line of the chip, by the words of chip.h alone, and how a run ends: nothing ends QEMU from
   within, so run.sh waits for a line `status N`. */
#include "../host.h"

#ifdef CHIP_START
struct store {
    uint32_t address, word;
};

void start_chip(void) {
    static const struct store stores[] = {CHIP_START};
    for (uint32_t k = 0; k < sizeof stores / sizeof stores[0]; k++)
        *(volatile uint32_t *)stores[k].address = stores[k].word;
}
#else
void start_chip(void) {}
#endif

#ifdef UART_IS_HTIF
/* The host-target interface of Berkeley's simulators: a doubleword to the simulator and one from it, each with
   the lower half first, whose upper byte is the device and whose next one is the command. The simulator finds
   both by their names and sizes. QEMU's drops a byte that comes before the last one was taken. */
enum { CONSOLE = 1 << 24, SEND = CONSOLE | 1 << 16, RECEIVE = CONSOLE, HAS_COME = 0x100 };
extern volatile uint32_t tohost[2], fromhost[2];
__asm__(".section .bss.htif, \"aw\", @nobits\n .balign 16\n .globl tohost, fromhost\n"
        "tohost: .zero 8\n fromhost: .zero 8\n .size tohost, 8\n .size fromhost, 8\n .text\n");
static uint32_t byte_that_came; /* and HAS_COME */
static bool is_asked;

static void ask(uint32_t device_and_command, uint8_t byte) {
    tohost[0] = byte;
    tohost[1] = device_and_command;
}

/* The answer to a byte that was sent says nothing. */
static void take_htif_answer(void) {
    if (fromhost[1] == 0)
        return;
    if (fromhost[1] == RECEIVE && fromhost[0] & HAS_COME) {
        byte_that_came = fromhost[0];
        is_asked = false;
    }
    fromhost[0] = 0;
    fromhost[1] = 0;
}

void send(char byte) {
    take_htif_answer();
    ask(SEND, (uint8_t)byte);
}

int receive(void) {
    take_htif_answer();
    if (byte_that_came == 0) {
        if (!is_asked)
            ask(RECEIVE, 0);
        is_asked = true;
        return NO_BYTE;
    }
    uint8_t byte = (uint8_t)byte_that_came;
    byte_that_came = 0;
    return byte;
}
#else
static UART_WORD word_at(uint32_t address) {
    return *(volatile UART_WORD *)address;
}

void send(char byte) {
    while ((word_at(UART_STATUS) & UART_ROOM_MASK) != UART_ROOM) {
    }
    *(volatile UART_WORD *)UART_TRANSMIT = (uint8_t)byte;
}

/* On some chips the word that tells of a byte holds it too, and is loaded once. */
int receive(void) {
    UART_WORD word = word_at(UART_RECEIVE_STATUS);
    if ((word & UART_BYTE_MASK) != UART_BYTE)
        return NO_BYTE;
    return (uint8_t)(UART_RECEIVE == UART_RECEIVE_STATUS ? word : word_at(UART_RECEIVE));
}
#endif

void end(uint32_t status) {
    print("status ");
    print_decimal(status);
    print("\n");
    __asm__ volatile("csrw mie, zero");
    for (;;)
        __asm__ volatile("wfi");
}
