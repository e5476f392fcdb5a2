# A step over a breakpoint at a thread's own last ecall: GDB doesn't wait for the thread, which is gone, and goes on.
break *&exit + 4
continue
#> Thread 2 hit Breakpoint 1
continue
#> parent: 1035, its child 3
#> Thread 4 hit Breakpoint 1
info threads
#> Thread 3 \(both runs\)
stepi
thread 1
#> Switching to thread 1
continue
#> No more reverse-execution history
reverse-continue
#> hit Breakpoint 1
