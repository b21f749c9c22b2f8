# A stream gives what has come since it began, or since it last gave something, so many entries at most.
stream 0
add 1 2
del 1 2
update 0 1
update 0 9
close 0
