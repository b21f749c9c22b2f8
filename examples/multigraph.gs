# Edges may stand more than once, and may lead back to their own vertex. A list of
# neighbours is in the order in which the edges were added.
add 0 4
add 0 2
add 0 4
add 0 0
view 3
neigh 3 0
neigh 3 4
