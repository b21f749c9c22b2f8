# The second waits until three entries have come, and then looks at the graph.
until 3
view 0
neigh 0 2
bfs 0 0
