# Traps before it reports.
.sandbox 4096
        ebreak
