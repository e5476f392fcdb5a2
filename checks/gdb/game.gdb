# A wrong number is seen, and GDB goes back to the line that made it: for checks/gdb.sh and docs/manual/gdb.md.
set pagination off
set confirm off
set width 0
set print thread-events off
break report
continue
info threads
print game.rounds
watch game.rounds
reverse-continue
reverse-continue
print player
backtrace 2
delete
reverse-stepi
stepi
continue
continue
