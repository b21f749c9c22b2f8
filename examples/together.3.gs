# The third puts them; its sync answers when the first two are stable in the log file.
add 0 1
add 1 2
sync
add 2 3
del 0 1
