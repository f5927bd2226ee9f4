/* The serial line of `virt`, and how its run ends. */
#include "host.h"
#include "machine.h"

static volatile uint8_t *uart = (volatile uint8_t *)UART_DEVICE;
static volatile uint32_t *finisher = (volatile uint32_t *)FINISHER_DEVICE;

void console_is_paged(void) {
    uart = (volatile uint8_t *)UART;
    finisher = (volatile uint32_t *)FINISHER;
}

void send(char byte) {
    while (!(uart[UART_STATUS] & UART_IS_EMPTY)) {
    }
    uart[UART_TRANSMIT] = byte;
}

void end(uint32_t status) {
    for (;;)
        *finisher = status == 0 ? FINISH_PASSED : (FINISH_STATUS + status) << 16 | FINISH_FAILED;
}
