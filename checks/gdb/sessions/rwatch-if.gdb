# A read watchpoint whose condition holds late, in a program that forks, and one of a thread alone.
rwatch counted if counted == 30
continue
#> Hardware read watchpoint 1: counted
#> Value = 30
stepi
step
delete
rwatch counted
#> Hardware read watchpoint 2: counted
set scheduler-locking on
continue
#> Thread 3 hit Hardware read watchpoint 2: counted
continue
#> Thread 3 hit Hardware read watchpoint 2: counted
reverse-continue
#> Thread 3 hit Hardware read watchpoint 2: counted
