#!/usr/bin/env bash
# Tests of the wrapper ./sfi, in a scratch copy with five crates and stand-ins for the toolchain's command rt and for
# tools/build_program.py.
#
#     tools/test_sfi.sh
set -uo pipefail
unset CDPATH
top=$(cd "$(dirname "${BASH_SOURCE[0]}")/.." && pwd)
source "$top/examples/harness.sh"
trap 'chmod -R u+w "$room"; rm -rf "$room"' EXIT
copy=$room/checkout
out=$copy/crates/sfi/out

holds() { # a status, 0 where it passed; its name, and what is found
    report_as "$1" "$2" "what its name says" "$3"
}

# ---- the scratch copy, and commands that note each call, and fail if a file `break` is there
make_copy() {
    local crate
    mkdir -p "$copy/examples" "$copy/tools" "$room/bin"
    cp "$top/sfi" "$copy/sfi"
    printf '# the crates\nlow:\nmid: low thiserror\nsfi: mid # the program\n' >"$copy/crates.txt"
    printf 'sfi_tests: mid\nffi staticlib: low\n' >>"$copy/crates.txt"
    for crate in low mid sfi sfi_tests ffi; do
        mkdir -p "$copy/crates/$crate/src/tests" "$copy/crates/$crate/specs" "$copy/crates/$crate/proofs/tests"
        echo >"$copy/crates/$crate/src/lib.rt"
        touch -d "1 hour ago" "$copy/crates/$crate/src/lib.rt"
    done
}

# The builder's program prints its words, copies its input, sleeps, or ends in the status that it is told.
make_builder() {
    cat >"$copy/tools/build_program.py" <<'BUILDER'
#!/usr/bin/env bash
echo "build" >>"$ROOM/calls"
echo "all that rt printed"
if [ -e "$ROOM/break" ]; then
    echo "src/lib.rt:3:5: error: the reason" >&2
    exit 1
fi
mkdir -p "$ROOM/checkout/crates/sfi/out"
cat >"$ROOM/checkout/crates/sfi/out/sfi" <<'PROGRAM'
#!/bin/sh
case $1 in
copy) exec cat ;;
sleep) echo $$ >"$ROOM/process" && exec sleep 60 ;;
killed) kill -KILL $$ ;;
[0-9]) echo "said $1" && exit "$1" ;;
*) echo "program $*" ;;
esac
PROGRAM
chmod +x "$ROOM/checkout/crates/sfi/out/sfi"
BUILDER
    chmod +x "$copy/tools/build_program.py"
}

# `rt try --seconds N -- WORDS`, as far as the wrapper sees it: it runs the program above, or finds a fault.
make_rt() {
    cat >"$room/bin/rt" <<'RT'
#!/usr/bin/env bash
echo "$* in ${PWD##*/}" >>"$ROOM/calls"
[ "$1" = try ] && shift 4 && "$ROOM/checkout/crates/sfi/out/sfi" "$@"
status=$?
if [ "$1" = fault ]; then
    printf 'checked: fault\nrun=fault proved=no\n' >&2
    exit 1
fi
printf 'checked: ended\nrun=ended status=%s runners=1 proved=no\n' "$status" >&2
exit "$status"
RT
    chmod +x "$room/bin/rt"
}

# Runs the wrapper by a path, and keeps what it says: `found` has the output, the errors and the status.
call() { # path, arguments
    local status
    rm -f "$room/calls"
    { PATH=$room/bin:$PATH ROOM=$room "$@" >"$room/output" 2>"$room/errors" </dev/null; } 2>"$room/killed"
    status=$?
    found="$(cat "$room/output"); $(cat "$room/errors"); status $status"
}

says() { grep -qF -- "$1" <<<"$found"; }
calls() { [ -e "$room/calls" ] && wc -l <"$room/calls" || echo 0; }
ran() { [ "$(cat "$room/output")" = "program $*" ]; }
change() { echo >>"$copy/crates/$1"; }

first_build() {
    call "$copy/sfi" check --raw
    ran check --raw && [ "$(calls)" = 1 ] && says "proving and building the program"
    holds $? "the first call builds the program, and runs it" "$found"
    [ "$(cat "$out/sfi.log")" = "all that rt printed" ]
    holds $? "what rt prints is kept" "$(cat "$out/sfi.log")"
    call "$copy/sfi" check
    ran check && [ "$(calls)" = 0 ] && [ ! -s "$room/errors" ]
    holds $? "a second call builds nothing, and says nothing" "$found"
}

versions() {
    mkdir -p "$copy/bindings/python" && cp -r "$top/bindings/python/sfi_check" "$copy/bindings/python"
    call "$copy/sfi" --version
    report "a version says of what the program was built" \
        "program --version commit=unknown+$(sha256sum <"$out/sfi" | cut -c 1-12) logic=unknown" "$(tr '\n' ' ' <"$room/output" | sed 's/ $//')"
    echo '{"commit": "0123456789ab", "logic": "fedcba9876543210"}' >"$copy/built.json"
    call "$copy/sfi" -V
    report "a version says what a release notes" "commit=0123456789ab logic=fedcba9876543210" "$(tail -n 1 "$room/output")"
    rm -r "$copy/bindings" "$copy/built.json"
}

which_changes_count() {
    change sfi_tests/src/lib.rt && change ffi/src/lib.rt
    call "$copy/sfi" check
    ran check && [ "$(calls)" = 0 ]
    holds $? "a crate that the program doesn't stand on starts no build" "$found"
    change low/src/tests.rt && change low/src/tests/rows.rt && change low/proofs/tests/Rows.antt
    call "$copy/sfi" check
    ran check && [ "$(calls)" = 0 ]
    holds $? "tests of a crate start no build" "$found"
    change low/src/lib.rt && change mid/specs/Lib.antt
    call "$copy/sfi" check
    ran check && [ "$(calls)" = 1 ] && says "2 of 3 crates have changed (mid low)"
    holds $? "changed crates are built anew, and told" "$found"
}

# In a copy, as by `cp -r` or git, each source is newer than the program.
copies() {
    touch "$copy/crates/low/src/lib.rt"
    call "$copy/sfi" check
    ran check && [ "$(calls)" = 0 ] && [ ! -s "$room/errors" ]
    holds $? "a source that is newer, and as it was, starts no build" "$found"
    cp -r "$copy" "$room/copy" && find "$room/copy" -name '*.rt' -exec touch {} + && touch -d "1 hour ago" "$room/copy/crates/sfi/out/sfi"
    call "$room/copy/sfi" check
    ran check && [ "$(calls)" = 0 ] && [ ! -s "$room/errors" ]
    holds $? "nor does a copy of all" "$found"
    mv "$room/copy/crates/mid/src/lib.rt" "$room/copy/crates/mid/src/other.rt"
    call "$room/copy/sfi" check
    [ "$(calls)" = 1 ] && says "1 of 3 crates have changed (mid)"
    holds $? "another name of a source starts one" "$found"
    rm -r "$room/copy"
}

places() {
    mkdir -p "$room/elsewhere" && ln -s "$copy/sfi" "$room/elsewhere/link"
    call "$room/elsewhere/link" check
    ran check && [ "$(ls -A "$room/elsewhere")" = link ]
    holds $? "through a link, which leaves nothing beside it" "$found; $(ls -A "$room/elsewhere")"
    rm -r "$room/elsewhere"
    found=$(cd "$copy/crates" && ../sfi check 2>&1)
    [ "$found" = "program check" ]
    holds $? "from another folder" "$found"
}

failing() {
    change low/src/lib.rt && touch "$room/break"
    call "$copy/sfi" check
    says "status 125" && [ ! -s "$room/output" ]
    holds $? "a build that fails ends in 125, and runs nothing" "$found"
    [ "$(tail -n 2 "$room/errors")" = "src/lib.rt:3:5: error: the reason
sfi: the program can't be built; all that rt printed is in $out/sfi.log" ]
    holds $? "it tells the reason, and where all lines are" "$(tail -n 5 "$room/errors")"
    call "$copy/sfi" check
    rm "$room/break"
    [ "$(calls)" = 1 ] && says "status 125"
    holds $? "the call after it builds" "$found"
}

# The tools that the wrapper calls, without rt.
without_rt() { # arguments
    mkdir -p "$room/tools"
    ln -sf "$(python3 -c 'import sys; print(sys.executable)')" "$room/tools/python3"
    found=$(PATH=$room/tools /usr/bin/env python3 "$copy/sfi" "$@" 2>"$room/errors" </dev/null; echo "$?"; cat "$room/errors")
}

where_none_can_be_built() {
    change low/src/lib.rt
    without_rt check
    says "program check
0
sfi: sources have changed since the program was built, and it can't be built here: the Rattle toolchain isn't"
    holds $? "without the toolchain the program that is there is run" "$found"
    mv "$out/sfi" "$room/kept"
    without_rt check
    says "125
sfi: the program isn't built, and can't be built here: the Rattle toolchain isn't there"
    holds $? "without the toolchain and a program it ends in 125" "$found"
    without_rt try check
    says "125
sfi: the Rattle toolchain isn't there"
    holds $? "nor is anything tried there" "$found"
    mv "$room/kept" "$out/sfi"
    if [ "$(id -u)" != 0 ]; then
        chmod a-w "$out"
        call "$copy/sfi" check
    elif command -v setpriv >"$room/which"; then
        chmod a+rx "$room" && chmod a+rw "$room/output" "$room/errors" && rm -f "$room/calls"
        call setpriv --reuid=65534 --regid=65534 --clear-groups /usr/bin/env python3 "$copy/sfi" check
    else
        skip 1 "a folder that can't be written" "this is root, and setpriv isn't there"
        return
    fi
    ran check && [ "$(calls)" = 0 ] && says "can't be written; this runs it as it is"
    holds $? "where nothing can be written the program that is there is run" "$found"
}

# Waits until a command succeeds, 10 seconds at most.
await() {
    local tries
    for ((tries = 0; tries < 200; tries++)); do
        "$@" && return
        sleep 0.05
    done
    holds 1 "waiting for: $*" "10 seconds have passed"
}

statuses() {
    local status told
    while IFS=: read -r status told; do
        call "$copy/sfi" "$status"
        [ "$found" = "said $status; $told; status $status" ]
        holds $? "status $status of the program is that of the wrapper, and told if it is 4 or 5" "$found"
    done <<'ROWS'
0:
1:
3:
4:sfi: memory ran out, and nothing was printed (status 4)
5:sfi: reading the input or writing the output failed (status 5)
ROWS
    call "$copy/sfi" killed
    says "status 137"
    holds $? "where a signal ends the program it ends the wrapper" "$found"
    found=$(echo words | "$copy/sfi" copy)
    [ "$found" = words ]
    holds $? "the program reads the wrapper's input" "$found"
    found=$("$copy/sfi" copy 2>&1 <&-)
    [ $? = 1 ]
    holds $? "a closed input is closed for the program" "$found"
    rm -f "$room/process"
    ROOM=$room "$copy/sfi" sleep &
    await test -s "$room/process"
    kill -TERM "$!"
    wait "$!" 2>>"$room/errors"
    found="status $?"
    [ "$found" = "status 143" ] && ! kill -0 "$(cat "$room/process")" 2>>"$room/errors"
    holds $? "a signal ends the program, too" "$found"
}

natively() {
    mkdir -p "$copy/tools/suygapid" && touch "$copy/tools/suygapid/__init__.py"
    echo 'def program_words(program): return ["echo", "--program", program]' >"$copy/tools/suygapid/native.py"
    call "$copy/sfi" exec image --budget 5
    report "exec goes by native code" "--program $out/sfi exec image --budget 5; ; status 0" "$found"
    rm -r "$copy/tools/suygapid"
}

tries() {
    local said="sfi: this build proves nothing: rt try compiles the sources as they are, which takes some 80 seconds"
    change low/src/lib.rt
    call "$copy/sfi" try check --raw
    [ "$found" = "program check --raw; $said; status 0" ] &&
        [ "$(cat "$room/calls")" = "try --seconds 3600 -- check --raw in sfi" ]
    holds $? "a try builds nothing, and says that nothing is proved" "$found; $(cat "$room/calls")"
    call "$copy/sfi" try 4
    says "said 4; $said
sfi: memory ran out, and nothing was printed (status 4); status 4"
    holds $? "its status is the command's" "$found"
    found=$(printf 'words\n\n' | PATH=$room/bin:$PATH ROOM=$room "$copy/sfi" try copy 2>"$room/errors" | od -c)
    [ "$found" = "$(printf 'words\n\n' | od -c)" ]
    holds $? "it reads the wrapper's input" "$found"
    call "$copy/sfi" try fault
    says "checked: fault" && says "the command didn't end, as the lines above say; status 125"
    holds $? "one that doesn't end is told, by status 125" "$found"
}

named_program() {
    printf '#!/bin/sh\necho "other $*"\nexit 3\n' >"$room/other" && chmod +x "$room/other"
    change low/src/lib.rt
    call env SFI="$room/other" "$copy/sfi" check --raw
    [ "$found" = "other check --raw; sfi: this runs $room/other, as SFI says; status 3" ] && [ "$(calls)" = 0 ]
    holds $? "a program that SFI names is taken as it is, and named" "$found"
    call env SFI="$copy/sfi" "$copy/sfi" check
    ran check && [ "$(calls)" = 1 ]
    holds $? "where SFI names the wrapper it counts for nothing" "$found"
    call env SFI="$room/none" "$copy/sfi" check
    says "status 125" && says "$room/none"
    holds $? "where SFI names no program it ends in 125" "$found"
}

make_copy
make_builder
make_rt
first_build
versions
statuses
natively
tries
named_program
which_changes_count
copies
places
failing
where_none_can_be_built
finish
