# The first of three scripts that run at once: it follows what the others put, from the beginning, once four entries have come.
stream 0
until 4
update 0 2
update 0 9
close 0
