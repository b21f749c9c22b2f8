# Loads a file of edges, as the SNAP collection has them, and asks who links most and how far all is from vertex 0.
load web.txt
view 0
rank 0 3
bfs 0 0
hop 0 0
level 0 0 4
degree 0 2
