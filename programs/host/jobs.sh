#!/bin/sh
# jobs.sh: tells how many checks may go side by side: one for each processor, but no more than there is room for. No check of
# the gate was seen to take 4 GB, so 4.5 GB are set aside for each.
# (Left to itself, `rt ci` plans by the lines of a crate's proofs and of those below it, and for the kernel's crate it sets
# aside 15 GB, so that nothing else runs beside it.)
jobs=$(nproc)
room=$(awk '/^MemAvailable:/ { print int($2 / 4500000) }' /proc/meminfo)
[ "$room" -ge "$jobs" ] || jobs=$room
[ "$jobs" -ge 1 ] || jobs=1
echo "$jobs"
