# At each turn of the loop in kept.c: its pointer and its sum.
set confirm off
set width 0
break kept.c:7
commands
silent
info args
info locals
continue
end
continue
