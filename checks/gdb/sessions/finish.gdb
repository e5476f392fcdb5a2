# Out of a function, and back to its call.
break add
continue
#> hit Breakpoint 1
up
#> work
down
#> add
delete
finish
#> Value returned is
reverse-step
reverse-finish
step
