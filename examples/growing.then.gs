# The second run goes on from the first: its view has the old edges, and a deletion takes one of them out.
view 0
del 3 5
add 3 9
view 1
neigh 0 3
neigh 1 3
