/* The heap that --heap gives. */
void *__heap_more(int more);

int main(int argc, char **argv) {
    char *heap = __heap_more(1000);
    heap[999] = argc;
    return heap && !__heap_more(1) && argc == 1 && argv[0][0] == 0 && argv[1] == 0 ? 1000 : 0;
}
