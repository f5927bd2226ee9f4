int absent(int);

int main(void) {
    return absent(1);
}
