/* What addresses.c has addresses of: it doesn't see which name is of code, and which of data. */
int elsewhere[8] = {1, 2, 3, 4, 5, 6, 7, 8};
int *const into_elsewhere = elsewhere + 5;

int twice(int number) {
    return 2 * number;
}
