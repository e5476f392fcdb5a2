# GDB's own setting.
set scheduler-locking replay
break add if counted == 7
continue
#> hit Breakpoint 1
step
step
reverse-step
reverse-stepi
stepi
delete
continue
#> No more reverse-execution history
