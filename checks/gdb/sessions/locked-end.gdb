# The thread that alone is let run ends: GDB is told that nobody is let run any more.
break exit
continue
#> hit Breakpoint 1
set scheduler-locking on
continue
#> No unwaited-for children left
set scheduler-locking off
info threads
thread 4
#> Switching to thread 4
continue
#> Thread 4 hit Breakpoint 1
