# What elf/test.sh has gdb do with debugged.c. Lines that begin with "= " are compared with those of its file `wanted`.
set confirm off
set width 0
compare-sections
disassemble main
break heaviest
continue
printf "= %s weighs %d\n", first->name, first->weight
printf "= %d and %d\n", length(items[1].name), factorial(5)
watch total
continue
printf "= total %d\n", total
continue
printf "= total %d\n", total
delete
finish
printf "= heaviest %d, total %d\n", $, total
break factorial if n == 2
continue
up 4
printf "= outermost n %d\n", n
down 4
finish
printf "= factorial %d\n", $
stepi
delete
set var total = factorial(4)
printf "= total %d\n", total
break wrong
continue
printf "= by %d\n", by
delete
continue
info line *$pc
printf "= trapped, and factorial(3) is %d\n", factorial(3)
up
printf "= product %d, best %d\n", product, best
watch total
reverse-continue
printf "= before it was set by hand total %d\n", total
reverse-continue
printf "= before that total %d\n", total
delete
break length
reverse-continue
printf "= the last text %s, total %d\n", text, total
delete
reverse-finish
reverse-next
printf "= at its item %d\n", at->weight
set var total = 1000
break wrong
continue
printf "= another way, by %d, total %d\n", by, total
delete
tbreak main
run
printf "= begun anew, total %d\n", total
