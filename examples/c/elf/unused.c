int absent(int);

int unused(int n) { /* a member of an archive that nothing calls isn't linked */
    return absent(n);
}
