# Only one thread is let run: no other's stop is told.
break add
continue
#> Thread 2 hit Breakpoint 1
continue 20
#> hit Breakpoint 1
set scheduler-locking on
thread 2
#> Switching to thread 2
continue
#> Thread 2 hit Breakpoint 1
continue
#> Thread 2 hit Breakpoint 1
step
stepi
next
continue 3
#> Thread 2 hit Breakpoint 1
thread 4
#> Switching to thread 4
continue
#> Thread 4 hit Breakpoint 1
stepi
set scheduler-locking off
continue
#> hit Breakpoint 1
