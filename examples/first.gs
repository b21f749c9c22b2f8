# An edge, a view of the graph that has it, and where it leads.
add 3 5
view 0
neigh 0 3
