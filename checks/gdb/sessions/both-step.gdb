# Breakpoints of both processes, while one steps over the lines.
break work
break add
continue
#> hit Breakpoint 1
step
step
next
next
step
next
continue
#> hit Breakpoint
next
next
next
step
print counted
#> =
delete
continue
#> No more reverse-execution history
