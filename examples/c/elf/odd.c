/* An address in the data at a place that is no multiple of 4. */
struct __attribute__((packed)) {
    char letter;
    const void *at;
} odd = {1, &odd};

int main(void) {
    return odd.letter;
}
