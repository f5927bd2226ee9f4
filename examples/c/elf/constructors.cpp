#include "gates.h"

struct Told {
    char letter;
    Told(char letter) : letter(letter) { put(&letter, 1); }
    virtual char next() { return letter + 1; }
};

Told third __attribute__((init_priority(300))) ('3');
Told first __attribute__((init_priority(100 + 1))) ('1');
Told second __attribute__((init_priority(200))) ('2');

int main() {
    Told *at = &third;
    char letter = at->next();
    put(&letter, 1);
    return 0;
}
