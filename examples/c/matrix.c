/* Multiplies square matrices of numbers below a prime, and raises one to a power. The input's bytes fill the first. */
#include "gates.h"
#include "numbers.h"

enum { SIDE = 20, PRIME = 32749 };

typedef unsigned matrix[SIDE][SIDE];

static matrix base, power, scratch;

static void set_identity(matrix to) {
    for (int row = 0; row < SIDE; row++)
        for (int column = 0; column < SIDE; column++)
            to[row][column] = row == column;
}

static void copy(matrix to, matrix from) {
    for (int row = 0; row < SIDE; row++)
        for (int column = 0; column < SIDE; column++)
            to[row][column] = from[row][column];
}

static void multiply(matrix to, matrix left, matrix right) {
    for (int row = 0; row < SIDE; row++)
        for (int column = 0; column < SIDE; column++) {
            unsigned sum = 0;
            for (int i = 0; i < SIDE; i++)
                sum = (sum + left[row][i] * right[i][column]) % PRIME;
            to[row][column] = sum;
        }
}

static void raise(matrix to, matrix from, unsigned exponent) {
    set_identity(to);
    for (; exponent; exponent >>= 1) {
        if (exponent & 1) {
            multiply(scratch, to, from);
            copy(to, scratch);
        }
        multiply(scratch, from, from);
        copy(from, scratch);
    }
}

static void transpose(matrix m) {
    for (int row = 0; row < SIDE; row++)
        for (int column = 0; column < row; column++) {
            unsigned other = m[row][column];
            m[row][column] = m[column][row];
            m[column][row] = other;
        }
}

static unsigned trace(matrix m) {
    unsigned sum = 0;
    for (int i = 0; i < SIDE; i++)
        sum += m[i][i];
    return sum % PRIME;
}

int main(void) {
    unsigned char bytes[SIDE];
    for (int row = 0; row < SIDE; row++) {
        long count = get(bytes, SIDE);
        for (int column = 0; column < SIDE; column++)
            base[row][column] = column < count ? bytes[column] * 7 + row : row + column;
    }
    put_number(trace(base));
    put("\n", 1);
    raise(power, base, 1000003);
    transpose(power);
    for (int column = 0; column < SIDE; column++) {
        put_number(power[SIDE - 1][column]);
        put(column + 1 < SIDE ? " " : "\n", 1);
    }
    return trace(power) % 251;
}
