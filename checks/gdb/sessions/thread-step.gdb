# A step of a thread that isn't the one that stopped, at a breakpoint of both.
break add
continue
#> Thread 2 hit Breakpoint 1
continue 20
#> Thread [24] hit Breakpoint 1
info threads
thread 4
#> Switching to thread 4
step
next
step
print counted
#> =
thread 2
#> Switching to thread 2
step
print counted
#> =
