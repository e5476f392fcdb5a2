# Back, with two processes at breakpoints.
break add
continue
#> Thread 2 hit Breakpoint 1
continue 12
#> hit Breakpoint 1
reverse-continue
#> hit Breakpoint 1
reverse-continue
#> hit Breakpoint 1
thread 4
#> Switching to thread 4
reverse-stepi
reverse-step
reverse-next
thread 2
#> Switching to thread 2
reverse-stepi
reverse-continue
#> hit Breakpoint 1
continue
#> hit Breakpoint 1
