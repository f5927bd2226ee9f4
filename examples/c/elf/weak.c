int chosen __attribute__((weak)) = 11;

int main(void) {
    return chosen;
}
