# What holds code in words within its guard zones, for test.sh and mcu/test.sh, whose functions this uses: each
# access there traps, and the sandbox ends with that; and the host tries both ends of each zone at its start.
# The sandboxes have 256 bytes of data each, from code_at and data_at on (`at` of testing.sh). `own` is the folder,
# in examples/device, of the run.sh that is tried.

beside() { # an image's sandboxes as text, which are as many as it has
    local count
    count=$(grep -c '^\.sandbox' "$1")
    # shellcheck disable=SC2046 # words
    "$SFI" build $(at $(seq 0 $((count - 1)))) <"$1" >"$room/image.hex"
}

# ---- Accesses as far from the data as a step allows, and loads into x0

# Each row: what is done, how far from the data base it traps, `Load` or `Store`. `down` steps to 2048 + 1020
# below the data's first byte, and `up` to 2047 + 1020 above its last one.
far_rows() {
    local operation cause
    for operation in lb lbu lh lhu lw sb sh sw; do
        case $operation in l*) cause=Load ;; *) cause=Store ;; esac
        echo "down a1 $operation -1020 -4088 $cause"
        echo "up a1 $operation 1018 4340 $cause"
        echo "up a1 $operation 1020 4342 $cause"
    done
    for operation in lb lbu lh lhu lw; do
        echo "first zero $operation -2048 -2048 Load"
        echo "last zero $operation 2047 2302 Load"
    done
}

# The lines of a sandbox, in the format of words.
far_source() { # a row
    printf '.sandbox 256\n li a1, 0x44332211\n'
    case $1 in
    down) printf ' li gp, 0\n addi gp, gp, -1020\n lbu a0, 1020(gp)\n addi gp, gp, -2048\n' ;;
    up) printf ' li gp, -1\n addi gp, gp, 1020\n lbu a0, -1020(gp)\n addi gp, gp, 2047\n' ;;
    first) printf ' li gp, 0\n' ;;
    last) printf ' li gp, -1\n' ;;
    esac
    printf ' %s %s, %s(gp)\n ebreak\n' "$3" "$2" "$4"
}

try_far() { # how many sandboxes an image may have
    local rows from number wanted found away cause
    readarray -t rows < <(far_rows)
    for ((from = 0; from < ${#rows[@]}; from += $1)); do
        wanted=''
        echo '.format words' >"$room/far.s"
        for ((number = 0; number < $1 && from + number < ${#rows[@]}; number++)); do
            # shellcheck disable=SC2046,SC2086 # words
            far_source ${rows[from + number]} >>"$room/far.s"
            read -r _ _ _ _ away cause <<<"${rows[from + number]}"
            wanted+=$(printf 'sandbox=%s trap=%s at=%08x out=' "$number" "$cause" \
                $((data_at + 0x2100 * number + away)))$'\n'
        done
        beside "$room/far.s"
        found=$(run --rounds 3 --steps --written <"$room/image.hex")
        report "$chip: ${rows[from]} and on" "${wanted%$'\n'}" "$(without_steps <<<"$found")"
        report "$chip: ${rows[from]} and on, beside sfi run" "$("$SFI" run --rounds 3 <"$room/image.hex")" "$found"
    done
}

# ---- Hosts with an edit, which the tests or the host itself have to see

edited=$room/examples/device
edit_host() { # a file of device or examples/device, from the top of the repository on, and what sed does to it
    local top=$shared/../..
    rm -rf "$edited" "$room/device" "$room/edited_out"
    mkdir -p "$edited"
    ln -sfn "$(realpath "$top/crates")" "$room/crates"
    cp -r "$top/device" "$room"
    (cd "$shared" && cp -r ./*.[chS] ./*.sh ./*.mk ./*.ld Makefile mcu "$edited")
    sed -i "$2" "$room/$1"
    ! cmp -s "$top/$1" "$room/$1" ||
        report "$chip: sed on $1: $2" "a changed file" "the same"
}

# The lines of the edited host, of the image $room/image.hex.
on_edited_host() { # words of run.sh
    (cd "$edited/$own" && by=(--unchecked) &&
        OUT=$room/edited_out run --rounds 3 --steps "$@" <"$room/image.hex") | without_steps
}

host_refuses() { # the sandbox, how far from data_at on a load doesn't do what it has to, and what that is
    report "$chip: the edited host: $2 from the data" \
        "$(printf 'device: sandbox %s: a load at %08x, in its %s' "$1" $((data_at + $2)) "$3")" "$(on_edited_host)"
}

# A host on which another address is that of a byte of the data, too, as where memory is mirrored: there its probe looks
# at the data's byte.
changed_by_store() { # how far from data_at the byte is, the other address, and which addresses `other` are the byte's
    edit_host device/mirrors.c "s/(const volatile uint8_t \*)other/(const volatile uint8_t *)($3 ? byte : other)/"
    report "$chip: the edited host: a byte of the data where $3" \
        "$(printf 'device: sandbox 0: a store at %08x, in its data, changes the byte at %08x, too' \
            $((data_at + $1)) $(($2)))" "$(on_edited_host)"
}

try_mirrors() { # the first address that the host has, but for the byte's, in a map that leaves out all bits but 12; its code's
    "$SFI" build $(at 0) <<<$'.sandbox 256\n ebreak' >"$room/image.hex"
    changed_by_store 0 "$1" "other % 4096 == byte % 4096"
    changed_by_store 0 "$2" "other == $(($2))u"
    changed_by_store 255 "$2 + 255" "other == $(($2 + 255))u"
}

# A handler that goes on behind a load that has trapped lets code out, three loads later: it stores into its
# neighbour's data. The lines tell of it.
try_handler() {
    cat >"$room/out.s" <<'END_OF_SOURCE'
.format words
.sandbox 256
        li      a1, 0x5a
        li      gp, -1
        addi    gp, gp, 1020
        lbu     a0, -1020(gp)
        addi    gp, gp, 2047
        lbu     a0, 1020(gp)
        addi    gp, gp, 2047
        lbu     a0, 1020(gp)
        addi    gp, gp, 2047
        lbu     a0, 1020(gp)
        addi    gp, gp, 12
        sb      a1, 1020(gp)
        ebreak
.sandbox 256
        ebreak
END_OF_SOURCE
    beside "$room/out.s"
    local neighbour
    neighbour=$(printf 'sandbox=1 trap=Break at=%08x out=' $((code_at + 0x1000)))
    report "$chip: a load far in the guard zone" \
        "$(printf 'sandbox=0 trap=Load at=%08x out=' $((data_at + 4342)))"$'\n'"$neighbour" \
        "$(run --rounds 3 --steps --written <"$room/image.hex" | without_steps)"
    edit_host device/turns.c 's/^    sfi_device_stop_by_trap(/    if (cause == CAUSE_LOAD_ACCESS || cause == CAUSE_LOAD_PAGE)\
        return sandbox->frame.pc += 4, true;\n&/'
    report "$chip: a handler that goes on behind it" \
        "sandbox=0 trap=Break $neighbour written=$(printf %08x $((data_at + 0x2100))):5a" \
        "$(on_edited_host --written | sed 's/ at=[0-9a-f]* out=$//' | paste -sd ' ')"
}
