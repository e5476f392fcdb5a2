# A watchpoint with a condition stops where it holds.
watch counted if counted == 30
continue
#> New value = 30
print counted
#> = 30
stepi
step
