# Images by hand, for test.sh: code that the GNU assembler makes, so that it needn't be code that
# `sfi build` would make. They want $room, a folder for what is made on the way.

words() { # numbers, little-endian
    local number
    for number; do
        printf %02x $((number & 255)) $((number >> 8 & 255)) \
            $((number >> 16 & 255)) $((number >> 24 & 255))
    done
}

# Assembly on standard input, which has `gate`, the stub of a gate, and `masked register, address`,
# the pair of an access. Prints the code, filled up with ebreak to a power of two.
assemble() { # code base
    local text size
    {
        cat <<'END'
        .option norvc
        .macro  gate
        ecall
        and     x31, x1, x25
        or      x31, x31, x24
        jalr    x0, 0(x31)
        .endm
        .macro  masked register, address
        and     \register, \address, x27
        or      \register, \register, x26
        .endm
END
        cat
        printf '.option rvc\n.balign 16\n'
    } >"$room/code.S"
    riscv64-unknown-elf-gcc -nostdlib -march=rv32imc_zicsr -mabi=ilp32 -mno-relax \
        -Wl,--no-relax,-Ttext="$1",-e0 "$room/code.S" -o "$room/code.elf" || return
    riscv64-unknown-elf-objcopy -O binary -j .text "$room/code.elf" "$room/code.bin" || return
    text=$(digits_of "$room/code.bin")
    size=256
    while [ $((2 * size)) -lt ${#text} ]; do size=$((2 * size)); done
    printf %s "$text"
    while [ ${#text} -lt $((2 * size)) ]; do
        printf 73001000
        text+=73001000
    done
}

# One sandbox of an image; its start is after its gates, which are its first bundles.
# Its arguments: code base, data base, data size, services of its gates, first data bytes in
# hexadecimal.
sandbox() { # assembly on standard input
    local code service place=$1 gates=()
    code=$(assemble "$1")
    for service in $4; do
        gates+=("$place" "$service")
        place=$((place + 16))
    done
    words "$1" $((${#code} / 2)) "$2" "$3" "$place" $((${#gates[@]} / 2)) $((${#5} / 2))
    words ${gates[@]+"${gates[@]}"}
    printf '%s%s' "$code" "$5"
}

image() { # format, how many sandboxes; the sandboxes on standard input
    printf '5346493%s' "$1"
    words "$2"
    cat
}

# A boot ROM at an address, which QEMU starts at and which ends at the host's first instruction: assembly
# on standard input. Prints words for QEMU.
boot_rom() { # its address, the host's
    { cat && printf ' li t0, %s\n jr t0\n' "$2"; } >"$room/boot.S"
    riscv64-unknown-elf-gcc -nostdlib -march=rv32imc_zicsr -mabi=ilp32 -mno-relax -Wl,-Ttext="$1",-e0 \
        "$room/boot.S" -o "$room/boot.elf" || return
    riscv64-unknown-elf-objcopy -O binary -j .text "$room/boot.elf" "$room/boot.bin" || return
    echo "-device loader,file=$room/boot.bin,addr=$1,force-raw=on -device loader,addr=$1,cpu-num=0"
}
