#!/usr/bin/env python3
"""Prints a C program with a `switch` of CASES cases in a loop, which docs/C.md measures: 20 times over 1024 values.

    examples/c/programs/switch.py CASES > switch.c
"""
import sys

PROGRAM = """static unsigned char values[1024];

__attribute__((noinline)) static unsigned passed(unsigned x) {{
    for (int i = 0; i < 1024; i++)
        switch (values[i]) {{
{cases}        }}
    return x;
}}

int main(void) {{
    unsigned x = 1;
    for (int i = 0; i < 1024; i++)
        values[i] = (x = x * 1103515245 + 12345) / 65536 % {count};
    for (int i = 0; i < 20; i++)
        x = passed(x);
    return x;
}}
"""


def case(number):
    more = f" + (x >> {number % 7 + 1})" if number % 2 else ""
    return f"        case {number}: x = x {'+-^'[number % 3]} {number * 7919 % 1000}{more}; break;\n"


def main():
    count = int(sys.argv[1])
    print(PROGRAM.format(cases="".join(map(case, range(count))), count=count), end="")


if __name__ == "__main__":
    main()
