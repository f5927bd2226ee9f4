# Never reports.
.sandbox 4096
.gate yield 3
more:   call yield
        j    more
