# A deletion takes out the copy that was added first, of those that are left. One that
# finds none does nothing, now or later.
add 1 2
add 1 3
add 1 2
del 1 2
del 4 4
add 4 4
view 0
neigh 0 1
neigh 0 4
