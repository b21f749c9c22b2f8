add 3 5
add 3 6
del 3 5
view 0
neigh 0 3
