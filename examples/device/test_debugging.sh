# What tells where a plug-in is: gdb at it by its ELF, over QEMU's server, and the line of a trap, by the image's names. A part of
# testing.sh.

debugged_source() {
    cat <<'END_OF_SOURCE'
static int numbers[4] = {1, 2, 3, 4};

__attribute__((noinline)) static int twice(int number) {
    int doubled = number + number;
    return doubled;
}

__attribute__((noinline)) static int sum(int count) {
    int found = 0;
    for (int at = 0; at < count; at++)
        found += twice(numbers[at]);
    return found;
}

int main(void) {
    int all = sum(4);
    return all;
}
END_OF_SOURCE
}

# What gdb says to these commands, at a run of $room/image.hex that waits for it. The run's line goes to $room/line.
by_gdb() { # commands
    local server=$room/server command words=() waited=0
    for command; do words+=(-ex "$command"); done
    QEMU_OPTIONS="-S -gdb unix:$server,server=on,wait=off" run --seconds 120 <"$room/image.hex" >"$room/line" 2>"$room/log" &
    until [ -S "$server" ] || [ "$waited" = 600 ]; do
        sleep 0.1
        waited=$((waited + 1))
    done
    timeout 100 gdb-multiarch -q -nx -batch -ex "set pagination off" -ex "set trust-readonly-sections on" \
        -ex "target remote $server" "${words[@]}" "$room/debugged.elf" 2>&1
    wait
    rm -f "$server"
}

line_of() { grep -n "$1" "$room/debugged.c" | cut -d : -f 1; } # text of the source

try_debugging() { # words of sfi-cc
    local said names lines
    if ! has gdb-multiarch; then
        skip 4 "gdb at a plug-in" "gdb-multiarch isn't there (gdb-multiarch)"
        return
    fi
    debugged_source >"$room/debugged.c"
    succeeds "$chip: a program for gdb" "$shared/../../tools/sfi-cc" --program "$SFI" --format words -Og -g "$@" -o "$room/debugged.elf" "$room/debugged.c"
    "$shared/../../tools/sfi-image" "$room/debugged.elf" >"$room/image.hex"
    said=$(by_gdb "hbreak sum" continue next "info symbol \$pc" next "info symbol \$pc" "x/3i \$pc" delete \
        "hbreak twice" continue bt delete continue)
    report "$chip: gdb steps over a call" "sum sum" "$(sed -n 's/^\([a-z]*\) + .* in section .text.*/\1/p' <<<"$said" | xargs)"
    report "$chip: gdb shows the code" 3 "$(grep -c '^\(=>\|  \) 0x[0-9a-f]* <sum+[0-9]*>:	[a-z]' <<<"$said")"
    names=$(sed -n 's/^#[0-9] *\(0x[0-9a-f]* in \)\{0,1\}\([a-z]*\) .*/\2/p' <<<"$said" | xargs)
    lines=$(sed -n 's/^#[12] .*debugged\.c:\([0-9]*\)$/\1/p' <<<"$said" | xargs)
    report "$chip: gdb shows the frames" "twice sum main, called at $(line_of 'twice(numbers') $(line_of 'sum(4)')" "$names, called at $lines"
    report "$chip: the plug-in goes on to its end" "$("$SFI" run <"$room/image.hex" | without_steps)" "$(without_steps <"$room/line")"
}

four() { echo "$(($1 & 255)), $(($1 >> 8 & 255)), $(($1 >> 16 & 255)), $(($1 >> 24 & 255))"; } # the bytes of a number

# A trap 4 bytes behind the start, which is 16 bytes behind the code's; the first data bytes end in a table of names.
trap_source() { # the table's exports, how many bytes these and the imports are said to have
    printf '.sandbox 256\n.gate exit 0\n li a0, 0\n ebreak\n.data\n .byte %s, %s, %s, %s, 83, 70, 73, 78\n' \
        "$1" "$(four 0)" "$(four "$2")" "$(four "$3")"
}

# The line of a trap's pc names the function, by the last export before it; of a wrong table it names none.
try_functions() { # where the code of sandbox 0 is
    local at=$((16#$1)) start behind zero what wanted bytes exports imports
    start="$(four $((at + 16))), 1, 102" # `f`, at the start
    behind="$(four $((at + 24))), 1, 103"
    zero="$(four "$at"), 1, 104"
    while IFS=: read -r what wanted bytes exports imports; do
        trap_source "$bytes" "$exports" "$imports" >"$room/trap.s"
        build "$room/trap.s" 1 >"$room/image.hex"
        report "$chip: the function of a trap: $what" " pc=$(printf %08x $((at + 20))) 00100073$wanted" \
            "$(./run.sh "${on[@]}" "${by[@]}" <"$room/image.hex" | sed -n 's/^sandbox=0\( pc=\)/\1/p')"
    done <<END
the last before it: in f+4:$zero, $start, $behind:18:0
in any order: in f+4:$behind, $start, $zero:18:0
imports are none: in h+20:$zero, $start:6:6
behind it alone::$behind:6:0
an object of the data::$(four $((at - 256))), 1, 102:6:0
more bytes than there are::$start:7:0
as many as wrap::$start:6:4294967295
a name that goes on behind the table::$(four $((at + 16))), 9, 102:6:0
a name with an escape::$(four $((at + 16))), 2, 102, 27:7:0
no name::$(four $((at + 16))), 0:5:0
a wrong name behind a right one::$start, $(four $((at + 16))), 9, 102:12:0
a claim of the tools::$(four $((at + 16))), 2, 46, 102:7:0
END
}
