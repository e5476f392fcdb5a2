# Back, while one thread is let run.
break add
continue
#> Thread 2 hit Breakpoint 1
continue 30
#> hit Breakpoint 1
set scheduler-locking on
thread 2
#> Switching to thread 2
reverse-continue
#> Thread 2 hit Breakpoint 1
reverse-continue
#> Thread 2 hit Breakpoint 1
reverse-stepi
thread 4
#> Switching to thread 4
reverse-continue
#> Thread 4 hit Breakpoint 1
set scheduler-locking off
reverse-continue
#> hit Breakpoint 1
delete
reverse-continue
#> No more reverse-execution history
