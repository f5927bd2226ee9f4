# What a vendor adds to the host: services and interrupts of one's own, and calls of a sandbox that has stopped.
# A part of testing.sh; `build` is that of the test.

try_enter() { # where the code of sandbox 0 is
    build "$cases/plugin.s" 1 >"$room/image.hex"
    local at code=$1 first=$((16#$1))
    at=$(printf %x $((first + 48)))
    report "a sandbox that has stopped is called" "sandbox=0 exit=1239 out=61" \
        "$(run --enter "0:$at:1000,200,30,4,2,1,1,1" <"$room/image.hex")"
    report "a function is called that returns" "sandbox=0 exit=1239 out=61" \
        "$(run --enter "0:$(printf %x $((first + 80))):1000,200,30,4,2,1,1,1" <"$room/image.hex")"
    report "it is called, with fewer arguments" "sandbox=0 exit=7 out=61" \
        "$(run --enter "0:$at:7" <"$room/image.hex")"
    local no="device: --enter: there is no such sandbox, or it hasn't stopped,"
    no+=" or no bundle or word begins there"
    for at in "0:$(printf %x $((first + 52)))" "0:$(printf %x $((first - 16)))" \
        "0:$(printf %x $((first + 65536)))" "1:$code"; do
        report "--enter $at" "$no"$'\nstatus 2' "$(run --enter "$at:" <"$room/image.hex"; echo "status $?")"
    done
    build "$cases/endless.s" 1 >"$room/image.hex"
    report "--enter of a sandbox that is ready" "$no"$'\nstatus 2' \
        "$(run --rounds 2 --enter "0:$code:" <"$room/image.hex"; echo "status $?")"
}

# A function that exits with its stack pointer, and is the start, too. Its first data bytes end in a table of names.
room_source() { # the table's import: a number of 4 bytes, a name's length, the name; the table's last 4 bytes
    printf '.sandbox 256\n.gate exit 0\n mv a0, sp\n call exit\n.data\n .byte %s\n .byte 1, 0, 0, 0\n' "${1// /, }"
    printf ' .byte 0, 0, 0, 0\n .byte 10, 0, 0, 0\n .byte %s\n' "${2// /, }"
}

# A function has the room above its stack that its image asks for, and the start has none.
try_room() { # where the code of sandbox 0 is
    local what wanted bytes end top format room_name="46 114 111 111 109" magic="83 70 73 78"
    while IFS=: read -r what wanted bytes end; do
        room_source "$bytes" "$end" >"$room/room.s"
        for format in $formats; do
            build "$room/room.s" "$format" >"$room/image.hex"
            top=$(run <"$room/image.hex" | sed 's/.* exit=\([0-9]*\) .*/\1/')
            report "room above the stack: $what, format $format, at the start" 240 "$((top % 256))"
            report "room above the stack: $what, format $format" "sandbox=0 exit=$((top - wanted)) out=" \
                "$(run --enter "0:$(printf %x $((16#$1 + 16))):" <"$room/image.hex")"
        done
    done <<END
64 bytes:64:64 0 0 0 5 $room_name:$magic
all but 16 bytes:240:240 0 0 0 5 $room_name:$magic
more than there is:0:241 0 0 0 5 $room_name:$magic
2^32 - 1 bytes:0:255 255 255 255 5 $room_name:$magic
another name:0:64 0 0 0 5 46 114 111 111 110:$magic
a longer name:0:64 0 0 0 6 $room_name 115:$magic
no table:0:64 0 0 0 5 $room_name:83 70 73 79
END
}

try_services() {
    build "$cases/counter.s" 1 >"$room/image.hex"
    report "services of a vendor's own" "sandbox=0 exit=42 out=" \
        "$(SERVICES=$cases/counter_services.c OUT=$room/vendor run <"$room/image.hex")"
}

# A vendor's interrupt comes at the first instruction of a turn, ten times.
try_interrupts() { # the interrupt's number, where the code of sandbox 0 is
    local line lines='' told="interrupt $1"
    for line in 1 2 3 4 5 6 7 8 9 10; do lines+="$told"$'\n'; done
    build "$cases/endless.s" 1 >"$room/image.hex"
    lines+=$("$SFI" run --rounds 2 <"$room/image.hex" | without_steps)
    report "interrupts of a vendor's own" "$lines" \
        "$(INTERRUPTS=$cases/software_interrupt.c OUT=$room/interrupts run --steps --rounds 2 <"$room/image.hex" | without_steps)"
    lines="$told"$'\n'"$told"$'\n'"$told"$'\n'"sandbox=0 trap=Interrupt at=$2 out="
    report "an interrupt that the vendor's file doesn't know" "$lines" \
        "$(INTERRUPTS=$cases/unknown_interrupt.c OUT=$room/unknown run --steps --rounds 2 <"$room/image.hex" | without_steps | head -n 4)"
}

# The pc and registers of `sfi run --report`, but for the instruction's name.
try_report() { # image
    local wanted
    wanted=$("$SFI" run --rounds 10 --report <"$1" | sed 's/\(pc=[0-9a-f]* [0-9a-f]*\) .*/\1/')
    report "--report" "$wanted" "$(./run.sh "${on[@]}" "${by[@]}" --steps --rounds 10 --report <"$1")"
}

# The pc of each trap is told without an option, too.
try_pcs() { # image
    local wanted
    wanted=$("$SFI" run --rounds 10 --report <"$1" |
        sed -n 's/\(pc=[0-9a-f]* [0-9a-f]*\) .*/\1/p')
    report "the pc of a trap" "$wanted" \
        "$(./run.sh "${on[@]}" "${by[@]}" --steps --rounds 10 <"$1" | grep ' pc=')"
}

try_vendor() { # where the code of sandbox 0 is, the interrupt's number
    try_enter "$1"
    try_room "$1"
    try_services
    try_interrupts "$2" "$1"
    build "$cases/outside.s" 1 >"$room/image.hex"
    try_report "$room/image.hex"
    try_pcs "$room/image.hex"
}
