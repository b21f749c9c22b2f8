# A view stays what it was, whatever is compacted meanwhile; once it is dropped, nothing holds its entries any more.
add 1 2
view 0
add 1 3
del 1 2
sync
compact
neigh 0 1
view 1
neigh 1 1
drop 0
compact
neigh 1 1
