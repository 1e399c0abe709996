# Three readers of one cell wait, and one store gives them its value in their order
accesses 4 cells 3 nodes = made
place i 1 = 0
1.1 fetch 0 = waiting
2.1 fetch 0 = waiting
1.2 fetch 0 = waiting
cell 0 = waiting in block 0 of 1 i
free = 0
-- The readers leave the cell's list one by one, then there is none, and their nodes are free again.
store 0 7 = stored for 1.1 2.1 1.2, then none
cell 0 = full 7 in block 0 of 1 i
lists = 4
waiting 0 = 0
free = 3

# A store that is drained gives its value to each reader in their order, and to nobody who waits to take
accesses 4 cells 4 nodes = made
place i 1 = 0
place m 1 = 1
2.1 fetch 0 = waiting
1.1 fetch 0 = waiting
3.1 take 1 = waiting
2.2 fetch 0 = waiting
free = 0
store 0 7 drained = stored for 2.1 1.1 2.2
cell 0 = full 7 in block 0 of 1 i
waiting 0 = 0
free = 3
-- A second store clashes, an M cell is not stored to, and neither is a cell in no block.
store 0 8 drained = clash
cell 0 = clashed 7 in block 0 of 1 i
store 1 9 drained = wrongkind
waiting 1 = 1
cell 1 = waiting in block 1 of 1 m
store 2 9 drained = nocell
cell 2 = free
free = 3

# A second store clashes, and the cell keeps its value
accesses 4 cells 1 nodes = made
place i 1 = 0
-- Nobody waits, and so nobody is drained from the list.
store 0 5 drained = stored
lists = 4
waiting 0 = 0
free = 1
1.2 fetch 0 = value 5
store 0 6 = clash
cell 0 = clashed 5 in block 0 of 1 i

# A cell in no block, or in a block of the other kind, is neither read nor written
accesses 4 cells 1 nodes = made
place m 1 = 0
look 0 m = empty
1.1 fetch 0 = wrongkind
1.1 fetch 1 = nocell
1.1 fetch 4 = nocell
1.1 fetch 4294967295 = nocell
free = 1
store 0 1 = wrongkind
cell 0 = empty in block 0 of 1 m

# Takers get the values in the order of their takes, and each value goes to one of them
accesses 4 cells 3 nodes = made
place m 1 = 0
3.1 take 0 = waiting
1.1 take 0 = waiting
2.1 take 0 = waiting
put 0 10 = stored for 3.1
cell 0 = waiting in block 0 of 1 m
put 0 20 = stored for 1.1
cell 0 = waiting in block 0 of 1 m
put 0 30 = stored for 2.1
cell 0 = empty in block 0 of 1 m
free = 3

# A second put clashes for good
accesses 4 cells 1 nodes = made
place m 1 = 0
put 0 1 = stored
put 0 2 = clash
free = 1
1.3 take 0 = clash
cell 0 = clashed 1 in block 0 of 1 m

# Thrown accesses do to four cells what they do to cells that are kept plainly
-- Cells 0 to 3 are of kind i, m, i and m. One that has clashed is renewed, as one of the other kind.
accesses 4 cells 20000 nodes = made
walk 20000 from 1 = 20000 steps agree
