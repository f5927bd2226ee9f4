void absent(void) __attribute__((weak));

int main(void) {
    absent();
    return 1;
}
