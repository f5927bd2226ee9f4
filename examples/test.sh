#!/usr/bin/env bash
# Builds the examples, checks and runs them, and compares what is printed: the tour of the README, and what programs write.
# The outputs were computed by programs in Python. The steps, which are fewer in the second format, were computed by an
# interpreter in C or Python that ran the images.
#
#     examples/test.sh [PROGRAM]    # PROGRAM is the program sfi
set -uo pipefail
unset CDPATH
here=$(cd "$(dirname "${BASH_SOURCE[0]}")" && pwd)
SFI=$(realpath "${1:-$here/../sfi}")
source "$here/harness.sh"
cd "$here" || exit 1
[ -f "$SFI" ] || { echo "$SFI isn't there" && exit 1; }

image_of() { # an example, and options: its image
    "$SFI" build "${@:2}" <"$1.s"
}

first_format() { # an example: its image without the line `.format 2`
    sed '/^\.format 2/d' "$1.s" | "$SFI" build
}

says() { # what is tried, and what is wanted, with status 1 where it is refused; a command, which reads standard input
    local status=0
    [[ $2 != *refused* ]] || status=1
    report "$1" "$2"$'\n'"status $status" "$("$SFI" "${@:3}" 2>&1; echo "status $?")"
}

# ---- the tour
chip=(--at 20500000:80000000)
hi=534649310100000000000001000100000000800100010000200000010200000002000000
hi+=0000000101000000100000010000000073000000b3ff9001b3ef8f0167800f0073000000b3ff9001b3ef8f0167800f00
hi+=370580011305050093052000eff05ffd37058001130505000100010001000100b37fb501b3efaf0103c51f00eff05ffc
hi+=$(printf '0290%.0s' {1..88})4869 # the fill, and the data
accepted="accepted sandboxes=1 bundles=16"
says "the smallest image" "$accepted" check <smallest.hex
says "hi.s to the letter" "$hi" build <hi.s
says "hi.s is accepted" "$accepted" check < <(image_of hi)
says "the bytes of hi.s are accepted" "$accepted" check --raw < <(printf '%b' "$(image_of hi | sed 's/../\\x&/g')")
says "hi.s runs" "sandbox=0 exit=105 steps=19 out=4869" run < <(image_of hi)
says "hi.s is accepted at a chip's places" "$accepted" check < <(image_of hi "${chip[@]}")
says "hi.s runs at a chip's places" "sandbox=0 exit=105 steps=19 out=4869" run < <(image_of hi "${chip[@]}")
report "hi.s is listed" "01000040 01b57fb3 and x31, x10, x27
01000044 01afefb3 or x31, x31, x26
01000048 001fc503 lbu x10, 1(x31)" "$(image_of hi | "$SFI" dis | sed -n '/^01000040/,/^01000048/p')"
says "hi.s with a nop in place of the mask of its load" "0 01000048 V5 access lbu x10, 1(x31)
refused findings=1 first=V5 sandbox=0 at=01000048" check --report < <(image_of hi | sed s/b37fb501/13000000/)
for name in echo checksum counter; do
    report "$name.s is accepted" "accepted sandboxes=1" "$(image_of "$name" | "$SFI" check | cut -d' ' -f1,2)"
done

# ---- words from sandbox to sandbox
digits_of_lines() { # lines: the digits of their bytes
    printf '%s\n' "$@" | digits_of
}

primes=$(digits_of_lines 02 03 05 07 11 13 17 19 23 29 31 37 41 43 47 53 59 61 67 71 73 79 83 89 97)
while read -r quantum rounds first second; do
    says "primes.s by turns of $quantum steps" "sandbox=0 exit=0 steps=$first out=
sandbox=1 exit=1060 steps=$second out=$primes" run --rounds "$rounds" --quantum "$quantum" < <(image_of primes)
done <<'END'
1 10000 3988 4003
7 1000 3988 3653
1000 10 3988 1428
100000 10 4008 1378
END

# ---- frames on the stack, in both formats
both_formats() { # an example, its exit, its steps in the second format and in the first, its output's digits, options
    says "$1.s in the second format" "sandbox=0 exit=$2 steps=$3 out=$5" run --quantum 1000000 "${@:6}" < <(image_of "$1")
    says "$1.s in the first format" "sandbox=0 exit=$2 steps=$4 out=$5" run --quantum 1000000 "${@:6}" < <(first_format "$1")
}

both_formats fibonacci 16 154206 200790 "$(digits_of_lines 0 1 1 2 3 5 8 13 21 34 55 89 144 233 377 610)"
both_formats hanoi 31 2534 4208 "$(digits_of_lines AC AB CB AC BA BC AC AB CB CA BA CB AC AB CB AC BA BC AC BA CB CA BA BC AC AB CB AC BA BC AC)"
both_formats sort 61 14172 15372 \
    131718191d1e1e1f20232525292c2e3031343c3c3f44494d4d545c5c60696d71727b7c7f939499999da0a5afafb9bbbecacbd6d6d6d9dadee5e8eefdfe \
    --input a54dca182530bb1d6d132cded6237b2ed91e3f721fcb1971174494d6493c9d5c3460be31201e69fedaa0eee8b9997f5c7c2999fdafe593253cd654af4d
# ---- a process: what is put goes to standard output as it is, and what is got comes from standard input
executes() { # what is tried, standard output, the first line of standard error, the status; the words, which read standard input
    local out status
    out=$("$SFI" exec "${@:5}" 2>"$room/said"; echo "status $?")
    report "$1" "$2status $4"$'\n'"$3" "$out"$'\n'"$(head -n 1 "$room/said")"
}

printf '%s' "$hi" >"$room/hi.hex"
image_of hi --raw >"$room/hi.image"
image_of echo --raw >"$room/echo.image"
printf '.sandbox 256\nebreak\n' | "$SFI" build --raw >"$room/trap.image"
printf '.sandbox 256\nagain: j again\n' | "$SFI" build --raw >"$room/endless.image"
printf '.sandbox 256\n.gate quit 0\nli a0, 0\ncall quit\n.sandbox 256\n.gate quit 0\nli a0, 7\ncall quit\n.sandbox 256\nebreak\n' |
    "$SFI" build --raw >"$room/three.image"
printf '%s' "${hi/b37fb501/13000000}" >"$room/refused.hex"
executes "hi.s as a process" "Hi" "" 105 "$room/hi.image" < <(printf x)
executes "hi.s as a process, from hexadecimal text" "Hi" "" 105 "$room/hi.hex" </dev/null
executes "a trap" "" "sandbox=0 trap=Break at=01000000 steps=0" 126 "$room/trap.image" </dev/null
executes "steps that are used up" "" "sandbox=0 ready steps=1000" 124 --budget 1000 "$room/endless.image" </dev/null
executes "as many steps as it takes" "Hi" "" 105 --budget 19 "$room/hi.image" </dev/null
executes "a step less than it takes" "Hi" "sandbox=0 ready steps=18" 124 --budget 18 "$room/hi.image" </dev/null
executes "the first of three that fails" "" "sandbox=2 trap=Break at=03000000 steps=0" 7 "$room/three.image" </dev/null
executes "an image that is refused" "" "refused findings=1 first=V5 sandbox=0 at=01000048" 125 "$room/refused.hex" </dev/null
executes "what is no image" "" "layout fault 3 Short" 125 <(printf SFI1) </dev/null
while IFS='|' read -r what path why; do
    executes "$what" "" "exec fault 2 Image \"$path\": $why" 125 "$path" </dev/null
done <<END
a file that isn't there|$room/none.image|No such file or directory (os error 2)
a folder|$room|is a directory
a path through a file|$room/hi.image/more|Not a directory (os error 20)
a file that can't be read|/proc/self/mem|it can't be read
END
executes "a path with a line feed" "" "exec fault 2 Image \"a\\nb\": No such file or directory (os error 2)" 125 $'a\nb' </dev/null
executes "a usage error" "" "error: invalid value '0' for '--budget <N>': 0 is not in 1..18446744073709551615" 3 --budget 0 "$room/hi.image" </dev/null
executes "no image" "" "error: the following required arguments were not provided:" 3 </dev/null
report "a help text goes to standard output" "$("$SFI" help exec)" "$("$SFI" exec --help 2>&1 >"$room/said"; cat "$room/said")"
# Streams that are closed or fail: the image's file, which may get the number of a closed one, is closed before the run.
while IFS='|' read -r what image streams put said status; do
    out=$(eval "\"\$SFI\" exec \"\$room/$image\" 2>\"\$room/said\" $streams"; echo "status $?")
    report "$what" "${put}status $status"$'\n'"$said" "$out"$'\n'"$(head -n 1 "$room/said")"
done <<'END'
standard input that is closed|echo.image|<&-||exec fault 4 Read|125
standard input that is closed, and isn't got|hi.image|<&-|Hi||105
standard input that is a folder|echo.image|<"$room"||exec fault 4 Read|125
standard output that is closed|hi.image|>&-||exec fault 5 Write|125
standard output that is closed, and isn't put to|trap.image|>&-||sandbox=0 trap=Break at=01000000 steps=0|126
standard output that is full|hi.image|>/dev/full||exec fault 5 Write|125
standard input and output that are closed|echo.image|<&- >&-||exec fault 4 Read|125
standard error that is closed|trap.image|2>&-|||126
standard error that is full|trap.image|2>/dev/full|||126
all three that are closed|trap.image|<&- >&- 2>&-|||126
standard input and error that are closed|echo.image|<&- 2>&-|||125
END
yes 'one more line of small letters' | head -c 100000 >"$room/long"
"$SFI" exec "$room/echo.image" <"$room/long" >"$room/echoed"
report "the status of 100000 bytes" 160 $?
report_as "$(tr a-z A-Z <"$room/long" | cmp - "$room/echoed" >"$room/log" 2>&1; echo $?)" "100000 bytes come out as capitals" "the same" "$(cat "$room/log")"
# What was put is there before a get waits for what comes later.
comes() { # a file; waits until it has something in it
    for _ in $(seq 100); do
        [ ! -s "$1" ] || break
        sleep 0.1
    done
}

mkfifo "$room/in"
"$SFI" exec "$room/echo.image" <"$room/in" >"$room/early" &
process=$!
exec 7>"$room/in"
printf first >&7
comes "$room/early"
report "what is put before a get waits" FIRST "$(cat "$room/early")"
exec 7>&-
wait "$process"
report "the end of the input" 5 $?

# What was put is there while the sandbox goes on: each put by itself at a terminal, else after a yield, or some steps.
puts_and_goes_on() { # the calls after three puts of a letter each; the image's file
    { printf '.sandbox 256\n.gate put 1\n.gate yield 3\n.gate quit 0\n'
      printf 'la a0, text\nli a1, 1\ncall put\n%.0s' 1 2 3
      printf '%b\nagain: j again\n.data\ntext: .byte 97\n' "$1"; } | "$SFI" build --raw >"$2"
}

writes_of() { echo $(($(sed -n 's/^syscw: //p' "/proc/$1/io") - 1)); } # a process; its writes but for that of its number

goes_on() { # what is tried; the writes by which the three letters came; a command, which runs $room/endless.image
    rm -f "$room/early" "$room/number"
    "${@:3}" >"$room/early" </dev/null 2>&1 &
    comes "$room/early"
    sleep 0.3
    process=$(cat "$room/number")
    report "$1" "aaa by $2" "$(tr -d '\r' <"$room/early") by $(writes_of "$process")"
    kill "$process"
    wait
}

in_process() { sh -c 'echo $$ >"$1"; exec "$2" exec "$3"' sh "$room/number" "$SFI" "$room/$1"; } # an image's file; runs it, its number in a file

puts_and_goes_on "" "$room/computes.image"
puts_and_goes_on "call yield" "$room/yields.image"
goes_on "what is put before it computes" 1 in_process computes.image
goes_on "what is put before a yield" 1 in_process yields.image
if has script; then
    goes_on "what is put at a terminal" 3 script -qc "echo \$\$ >'$room/number'; exec '$SFI' exec '$room/computes.image'" /dev/null
else
    skip 1 "what is put at a terminal" "script isn't there (Debian's package bsdutils)"
fi
# A sandbox that ends by exit is seen before the next one computes.
{ printf '.sandbox 256\n.gate put 1\n.gate quit 0\nla a0, text\nli a1, 3\ncall put\nli a0, 0\ncall quit\n.data\ntext: .byte 97, 97, 97\n'
  printf '.sandbox 256\nagain: j again\n'; } | "$SFI" build --raw >"$room/later.image"
goes_on "what one put before the next computes" 1 in_process later.image

# ---- the stack that docs/sfi.1 names is enough, also for large images
stack=$(sed -n 's/^.*A stack of \([0-9]*\) KiB.*$/\1/p' "$here/../docs/sfi.1")
program=$SFI
[ "$(head -c 2 "$SFI")" != "#!" ] || program=$here/../crates/sfi/out/sfi # what the wrapper runs
cp hi.s "$room/hi.s"
printf '.sandbox 1048576\nebreak\n.data\n.zero 100000\n' >"$room/large.s"
"$SFI" build <"$room/large.s" >"$room/large.hex"
"$SFI" build --raw <"$room/large.s" >"$room/large.image"
while IFS='|' read -r words inputs; do
    for input in $inputs; do
        # shellcheck disable=SC2086 # the words are several
        wanted=$("$program" $words <"$room/$input" 2>&1 | cksum; echo "status ${PIPESTATUS[0]}")
        # shellcheck disable=SC2086
        found=$( (ulimit -s "$stack" && exec env -i "$program" $words <"$room/$input" 2>&1) | cksum; echo "status ${PIPESTATUS[0]}")
        report "$words of $input, with a stack of $stack KiB" "$wanted" "$found"
    done
done <<END
check|hi.hex hi.image refused.hex large.hex large.image
check --raw|hi.image large.image
check --report|refused.hex large.image
dis|hi.hex large.image
build|hi.s large.s
map|hi.s
run --report|hi.hex large.image
exec $room/hi.image|hi.s
exec $room/large.image|hi.s
convert|hi.hex large.image
move --at 20500000:80000000|hi.hex large.image
translate|hi.hex
translate --whole|hi.hex large.image
help|hi.s
exec --budget 0 x|hi.s
END

finish
