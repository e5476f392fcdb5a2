# While it steps, one thread is let run.
break work
set scheduler-locking step
continue
#> hit Breakpoint 1
step
step
step
next
next
print counted
#> =
continue
#> hit Breakpoint 1
step
step
finish
#> Value returned
