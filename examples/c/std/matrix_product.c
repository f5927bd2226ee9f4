/* Reads two matrices of decimal numbers from standard input, each after its numbers of rows and columns, and prints
   their product. */
#include <ctype.h>
#include <stdio.h>
#include <stdlib.h>

struct matrix {
    int rows, columns;
    long *numbers;
};

static long *at(struct matrix matrix, int row, int column) {
    return &matrix.numbers[row * matrix.columns + column];
}

static void fail(const char *what) {
    puts(what);
    exit(EXIT_FAILURE);
}

static long read_number(void) {
    char text[16], *end;
    size_t length = 0;
    int character = getchar();
    while (isspace(character))
        character = getchar();
    for (; character != EOF && !isspace(character); character = getchar())
        if (length + 1 < sizeof text)
            text[length++] = (char)character;
    text[length] = '\0';
    long number = strtol(text, &end, 10);
    if (end == text || *end != '\0')
        fail("a number is missing or wrong");
    return number;
}

static struct matrix zeros(int rows, int columns) {
    struct matrix made = {rows, columns, NULL};
    if (rows < 1 || columns < 1 || rows > 40 || columns > 40)
        fail("a matrix has 1 to 40 rows and columns");
    made.numbers = calloc((size_t)rows * (size_t)columns, sizeof *made.numbers);
    if (made.numbers == NULL)
        fail("no memory");
    return made;
}

static struct matrix read_matrix(void) {
    int rows = (int)read_number();
    struct matrix read = zeros(rows, (int)read_number());
    for (int i = 0; i < read.rows * read.columns; i++)
        read.numbers[i] = read_number();
    return read;
}

static long cell(struct matrix left, struct matrix right, int row, int column) {
    long sum = 0;
    for (int i = 0; i < left.columns; i++)
        sum += *at(left, row, i) * *at(right, i, column);
    return sum;
}

static struct matrix product(struct matrix left, struct matrix right) {
    if (left.columns != right.rows)
        fail("the first has as many columns as the second has rows");
    struct matrix made = zeros(left.rows, right.columns);
    for (int i = 0; i < made.rows * made.columns; i++)
        made.numbers[i] = cell(left, right, i / made.columns, i % made.columns);
    return made;
}

static void print(struct matrix matrix) {
    for (int i = 0; i < matrix.rows * matrix.columns; i++)
        printf("%8ld%s", matrix.numbers[i], (i + 1) % matrix.columns ? " " : "\n");
}

int main(void) {
    struct matrix left = read_matrix();
    struct matrix right = read_matrix();
    struct matrix made = product(left, right);
    print(made);
    free(left.numbers);
    free(right.numbers);
    free(made.numbers);
    return made.rows;
}
