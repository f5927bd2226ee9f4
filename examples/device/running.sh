# What both run.sh share: their options, the bytes of image and input, and how a run ends. Before it is
# sourced, `here` is the script's folder, `top` that of the repository, and turn_most the longest turn.
#
#     --rounds N       how many rounds of one turn for each sandbox; 10000 if absent
#     --input HEX      what get reads
#     --enter S:PC:A0,A1,..   after the rounds enters sandbox S again at the address PC, in hexadecimal,
#                      with at most eight decimal arguments, and gives as many rounds once more
#     --steps          prints steps too. QEMU then counts instructions, one to a nanosecond of its clock
#     --written        prints the data bytes that are not as the image gave them
#     --report         prints the registers of each sandbox that hasn't exited, as `sfi run --report` does
#     --unchecked      sends an image that the checker refuses too
#     --checker FILE   has the image judged on the device, by the checker that checker.sh made
#     --seconds N      ends QEMU after so long; 60 if absent
#
# In the environment, SFI is the program sfi, ./sfi at the top if absent; RISCV the compiler that builds
# the host, riscv64-unknown-elf-gcc if absent; SERVICES and INTERRUPTS name files of C in the place of
# services.c and interrupts.c, and OUT the folder where the host is built; QEMU_OPTIONS are further
# words for QEMU. Ends in the checker's status where that refuses, in 2 where the host does or digits
# are wrong, in 3 for other words than these, for a tool that isn't there and for a fault of the host,
# in 4 where QEMU fails, in 124 after --seconds.
sfi=${SFI:-$top/sfi}
export RISCV=${RISCV:-riscv64-unknown-elf-gcc}
rounds=10000 turn='' input='' steps=0 written=0 report=0 seconds=60 checker='' unchecked=0
enters=(0 0 0)
room=$(mktemp -d)
qemu=''
trap '[ -z "$qemu" ] || kill "$qemu" 2>"$room/log" || true; rm -rf "$room"' EXIT

fail() { # the status to end in, and why
    echo "run.sh: ${*:2}" >&2
    exit "$1"
}

needs() { # a command, and where it comes from
    command -v "$1" >"$room/which" || fail 3 "$1 isn't there ($2)"
}

value() { # the command line from an option on
    [ $# -gt 1 ] || fail 3 "$1 takes a value; --help says which"
    echo "$2"
}

number() { # the most that it may be; the command line from an option on
    if ! [[ ${3:-} =~ ^[0-9]{1,10}$ ]] || ((10#$3 < 1 || 10#$3 > $1)); then
        fail 3 "$2 takes a number from 1 to $1"
    fi
    echo "$((10#$3))"
}

entry() { # S:PC:A0,A1,.. becomes numbers, eight of them arguments
    local form='^([0-9]{1,2}):([0-9a-f]{1,8}):(([0-9]{1,10},){0,7}[0-9]{1,10})?$' words
    [[ $1 =~ $form ]] || fail 3 "--enter takes S:PC:A0,A1,..; --help says what these are"
    words="${BASH_REMATCH[1]} $((16#${BASH_REMATCH[2]})) ${BASH_REMATCH[3]//,/ }"
    read -r -a words <<<"$words 0 0 0 0 0 0 0 0"
    echo "1 ${words[*]:0:10}"
}

bytes() { # what it is; hexadecimal text on standard input
    cat >"$room/text"
    tr -d ' \t\r\n' <"$room/text" >"$room/digits"
    if LC_ALL=C grep -aq '[^0-9a-fA-F]' "$room/digits" || (($(stat -c %s "$room/digits") % 2)); then
        fail 2 "$1 isn't pairs of hexadecimal digits: $(head -c 80 "$room/text" | tr -cd '[ -~]')"
    fi
    xxd -r -p "$room/digits"
}

help() { # of the script, and of this file
    sed -n '2,/^[^#]/ s/^# \{0,1\}//p' "$0"
    sed -n '1,/^[^#]/ s/^# \{0,1\}//p' "${BASH_SOURCE[0]}"
}

read_options() {
    while [ $# -gt 0 ]; do
        case $1 in
        --rounds) rounds=$(number 4294967295 "$@"); shift ;;
        --turn) turn=$(number "$turn_most" "$@"); shift ;;
        --seconds) seconds=$(number 4294967295 "$@"); shift ;;
        --input) input=$(value "$@"); shift ;;
        --enter)
            entered=$(value "$@")
            entered=$(entry "$entered")
            read -r -a enters <<<"$entered"
            shift
            ;;
        --steps) steps=1 ;;
        --written) written=1 ;;
        --report) report=1 ;;
        --unchecked) unchecked=1 ;;
        --checker) checker=$(value "$@"); shift ;;
        --help) help && exit 3 ;;
        *)
            own_values=0
            own_option "$@" || fail 3 "there is no option $1; --help names them"
            shift "$own_values"
            ;;
        esac
        shift
    done
}

needs_tools() {
    needs qemu-system-riscv32 "Debian's package qemu-system-misc"
    needs make "Debian's package make"
    needs xxd "Debian's package xxd"
}

# The bytes that are checked are the bytes that are sent.
read_bytes() {
    bytes "the image" >"$room/image"
    bytes "--input" >"$room/input" <<<"$input"
}

build_host() { # what make is told
    [ -z "$checker" ] || checker=$(realpath -eq "$checker") || fail 3 "--checker names no file"
    make -s -C "$here" CHECKER="$checker" "$@" >&2 ||
        fail 3 "the host isn't built; RISCV=PATH names the compiler, gcc for RISC-V"
}

# struct arguments of host.h.
write_arguments() { # ticks of a turn
    local word
    for word in "$(stat -c %s "$room/image")" "$(stat -c %s "$room/input")" "$rounds" "$1" \
        "$steps" "$written" "$report" "${enters[@]}"; do
        printf '%02x%02x%02x%02x' $((word & 255)) $((word >> 8 & 255)) $((word >> 16 & 255)) \
            $((word >> 24 & 255))
    done | xxd -r -p >"$room/arguments"
}

# A file of $room is loaded at an address, if it isn't empty.
file() { [ ! -s "$room/$1" ] || options+=(-device "loader,file=$room/$1,addr=$2,force-raw=on"); }

ended_late() {
    fail 124 "the run wasn't over after $seconds seconds; --seconds N gives it N, and with fewer" \
        "--rounds it ends by itself"
}

failed() { # the status of QEMU
    fail 4 "QEMU failed in status $1: $(tail -n 1 "$room/log")"
}
