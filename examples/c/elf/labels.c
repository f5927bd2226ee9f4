/* All its data are two addresses. */
int main(int argc, char **argv) {
    static const void *const labels[] = {&&even, &&odd};
    (void)argv;
    goto *labels[argc & 1];
even:
    return 3;
odd:
    return 4;
}
