# Two people follow a third, one after the other. A view never changes: place 0 keeps
# the graph as it was before the second edge, place 1 has both.
add 7 1
view 0

add 7 2
view 1

neigh 0 7
neigh 1 7
