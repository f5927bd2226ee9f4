# Four sandboxes that trap: a store and a load outside the data, 32 bits and 16 bits long, an ebreak; and
# one that exits.
.sandbox 256
.option rvc
        li   a0, -1
        li   a1, 0x44332211
        sw   a1, 1024(a0)
        ebreak

.sandbox 256
.option rvc
        li   a0, -1
        lw   a1, 4(a0)
        ebreak

.sandbox 256
        li   a0, 7
        ebreak

.sandbox 256
.gate exit 0
        li   a0, 7
        call exit
