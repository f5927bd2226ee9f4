__attribute__((noinline)) int deep(int n) {
    volatile char room[20000];
    room[n] = 7;
    return room[n];
}

int main(void) {
    return deep(19999);
}
