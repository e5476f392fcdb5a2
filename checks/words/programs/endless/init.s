again: j again
