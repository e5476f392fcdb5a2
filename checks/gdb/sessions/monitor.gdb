# What the kernel has, by the debugger's views.
break work
continue
#> Thread 2 hit Breakpoint 1
monitor help
#> monitor pages
monitor fds
#> process 3 \(both\)
monitor pages
#> process 3 \(both\)
monitor frames
#> frames
monitor console
monitor events
#> since the boot
monitor why
#> process 2 \(sh\) sleeps in wait, for a child to end: process 3 is its child
#> process 3 \(both\) runs, at 0x
monitor nothing
#> monitor pages
