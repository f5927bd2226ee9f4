# What the tests in shell share: a folder for what is made, $room, and the counts of the last line. A test
# sources this before all else that it does.
passed=0
failed=0
skipped=0
room=$(mktemp -d) || exit 1
trap 'rm -rf "$room"' EXIT

report_as() { # a status, 0 where it passed; what is tried, what is wanted, what is found
    if [ "$1" = 0 ]; then
        passed=$((passed + 1))
    else
        failed=$((failed + 1))
        printf 'FAILED %s\n  wanted %s\n  found  %s\n' "$2" "${3:0:500}" "${4:0:500}"
    fi
}

report() { # what is tried, what is wanted, what is found
    local status=1
    [ "$2" != "$3" ] || status=0
    report_as "$status" "$@"
}

succeeds() { # what is tried; a command, which has to end in 0
    local what=$1
    shift
    "$@" >"$room/log" 2>&1
    report_as $? "$what" "$*" "$(tail -n 30 "$room/log")"
}

skip() { # how many tests, what, and why
    skipped=$((skipped + $1))
    echo "skipped: $2: $3"
}

digits_of() { od -An -v -tx1 "$@" | tr -d ' \n'; } # the bytes of a file, or of standard input

has() { command -v "$1" >"$room/which" 2>&1; }

# What of these isn't there, as tools/testing.py says, or nothing. A compiler of hosts for another machine is there if it makes a program
# with its C library, which `has` doesn't ask.
lacking() {
    if command -v python3 >/dev/null; then "$programs/../../tools/testing.py" "$@"; else echo "python3 isn't there"; fi
}

# The image of a program of examples/c, in hexadecimal, by tools/sfi-cc and the program $SFI.
programs=$(cd "$(dirname "${BASH_SOURCE[0]}")/c" && pwd)
c_image() { # a program, a format, the image's file; fails where a compiler isn't there
    [ -z "$(lacking riscv64-unknown-elf-gcc)" ] &&
        "$programs/../../tools/sfi-cc" --program "$SFI" --format "$2" -O2 -fno-tree-loop-distribute-patterns -o "$3" "$programs/$1.c"
}

formats="1 2 words" # where places are stated that the fourth format, whose data begin at a single bit, hasn't
all_formats="$formats single"

# What compilers make is tried in the usual format each time, and in others by turns, of which the number of commits says whose it is:
# all have it where EACH_FORMAT is set (by `./test --all`), or git knows no commits.
usual=single # that of tools/sfi-cc
commits=$(git -C "$programs" rev-list --count HEAD 2>"$room/which") || EACH_FORMAT=1
is_due() { # a format, a test's number, and one of how many has its turn
    local -A after=([1]=0 [2]=$(($3 / 2)) [words]=$(($3 / 4)))
    [ "$1" = "$usual" ] || [ -n "${EACH_FORMAT:-}" ] || [ $(((commits + $2 + after[$1]) % $3)) = 0 ]
}

due() { # one of how many has its turn; tests: a line for each of them and each format that it is tried in
    local count=$1 number=0 name format
    shift
    for name; do
        for format in $all_formats; do ! is_due "$format" "$number" "$count" || echo "$name $format"; done
        number=$((number + 1))
    done
}

formats_due() { due 2 it | cut -d' ' -f2; } # of tests that all take their turn at once

has_turn() { # a number, and one of how many has its turn
    [ -n "${EACH_FORMAT:-}" ] || [ $(((commits + $1) % $2)) = 0 ]
}

in_format() { # a source text's file, a format; the text in that format
    grep -v '^\.format' "$1" | sed "1i .format $2"
}

needs() { # what needs it, a command, the Debian package that has it
    has "$2" || skip 1 "$1" "$2 isn't there (Debian's package $3)"
}

add_counts() { # the last line of another test; whether it is such a line, and counts anything
    local form='^([0-9]+) passed, ([0-9]+) failed(, ([0-9]+) skipped)?$'
    [[ $1 =~ $form ]] && ((BASH_REMATCH[1] + BASH_REMATCH[2] + BASH_REMATCH[4] > 0)) || return
    passed=$((passed + BASH_REMATCH[1]))
    failed=$((failed + BASH_REMATCH[2]))
    skipped=$((skipped + BASH_REMATCH[4]))
}

finish() {
    printf '%s passed, %s failed' "$passed" "$failed"
    [ "$skipped" = 0 ] || printf ', %s skipped' "$skipped"
    echo
    [ "$failed" = 0 ]
    exit
}
