# Writes the Adler-32 checksum of its input (RFC 1950, section 8.2) as four bytes, the highest first.
.sandbox 1024
.gate get 2
.gate put 1
.gate exit 0

        li   s0, 1              # the sum of the bytes, plus 1
        li   s1, 0              # the sum of these sums
        li   s2, 65521          # the modulus of both
block:  la   a0, buffer
        li   a1, 256
        call get
        beqz a0, done
        la   a2, buffer
        mv   a3, a0
        call add_bytes
        j    block
done:   slli s1, s1, 16
        or   a0, s1, s0
        call store_word
        la   a0, buffer
        li   a1, 4
        call put
        li   a0, 0
        call exit

# Adds the a3 bytes from a2 on; there is one at least.
add_bytes:
        lbu  t0, 0(a2)
        add  s0, s0, t0
        remu s0, s0, s2
        add  s1, s1, s0
        remu s1, s1, s2
        addi a2, a2, 1
        addi a3, a3, -1
        bnez a3, add_bytes
        ret

# Writes the bytes of a0 to the buffer, the highest first.
store_word:
        la   a2, buffer
        srli t0, a0, 24
        sb   t0, 0(a2)
        srli t0, a0, 16
        sb   t0, 1(a2)
        srli t0, a0, 8
        sb   t0, 2(a2)
        sb   a0, 3(a2)
        ret

.data
buffer: .zero 256
