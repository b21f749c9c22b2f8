# The first of two runs in one folder: the edges stay in the file graph.log.
add 3 5
add 3 6
view 0
neigh 0 3
