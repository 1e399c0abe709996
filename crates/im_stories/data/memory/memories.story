# Three readers of one I cell wait, and one store answers them all
memory 4096 cells 16 elements = made
0.1 alloc i 1 = base 0
1.1 fetch 0 = waiting
2.1 fetch 0 = waiting
1.2 fetch 0 = waiting
waiting 0 = 1.1 2.1 1.2
cell 0 = waiting in block 0 of 1 i
3.1 store 0 7 = stored
collect 1.1 = value 7
collect 2.1 = value 7
collect 1.2 = value 7
waiting 0 =
cell 0 = full 7 in block 0 of 1 i

# A second store of an I cell clashes, even of the same value
memory 4096 cells 16 elements = made
0.1 alloc i 1 = base 0
1.1 store 0 5 = stored
1.2 fetch 0 = value 5
1.3 store 0 5 = clash
1.4 fetch 0 = clash
-- What was read before stands.
collect 1.2 = value 5
cell 0 = clashed 5 in block 0 of 1 i

# Takers of an M cell are served in their order, one by each put
memory 4096 cells 16 elements = made
0.1 alloc m 1 = base 0
3.1 take 0 = waiting
1.1 take 0 = waiting
2.1 take 0 = waiting
4.1 put 0 10 = stored
4.2 put 0 20 = stored
collect 3.1 = value 10
collect 1.1 = value 20
collect 2.1 = waiting
4.3 put 0 30 = stored
collect 2.1 = value 30
cell 0 = empty in block 0 of 1 m

# A put on a full M cell clashes, and the cell keeps its value
memory 4096 cells 16 elements = made
0.1 alloc m 1 = base 0
1.1 put 0 1 = stored
1.2 put 0 2 = clash
1.3 take 0 = clash
cell 0 = clashed 1 in block 0 of 1 m

# Lengths and addresses have edges
memory 4096 cells 16 elements = made
0.1 alloc i 4096 = base 0
0.2 alloc i 1 = nospace
0.3 alloc i 0 = badlength
0.4 alloc m 4097 = nospace
1.1 fetch 4096 = nocell
1.2 fetch 4294967295 = nocell

# A block is made in the least hole that has room for it
memory 4096 cells 16 elements = made
0.1 alloc i 2 = base 0
0.2 alloc i 3 = base 2
0.3 alloc m 2 = base 5
0.4 release 2 = released
0.5 alloc i 4 = base 7
0.6 alloc i 3 = base 2
-- A cell within a block is no base, and an M cell is not fetched.
0.7 release 3 = noblock
1.1 fetch 5 = wrongkind
cell 10 = empty in block 7 of 4 i
cell 11 = free

# A block stays as long as one of its cells is waited for, and its cells are empty when they are made again
memory 4096 cells 16 elements = made
0.1 alloc i 1 = base 0
1.1 fetch 0 = waiting
0.2 release 0 = stillwaiting
waiting 0 = 1.1
cell 0 = waiting in block 0 of 1 i
2.1 store 0 9 = stored
0.3 release 0 = released
-- What was told stands, and what was read.
0.2 release 0 = stillwaiting
1.2 fetch 0 = nocell
collect 1.1 = value 9
0.4 alloc i 1 = base 0
1.3 fetch 0 = waiting
waiting 0 = 1.3

# A reset empties the cells of a block, which begin anew
memory 4096 cells 16 elements = made
0.1 alloc i 2 = base 0
1.1 store 0 5 = stored
1.2 store 0 6 = clash
cell 0 = clashed 5 in block 0 of 2 i
0.2 reset 0 = cleared
cell 0 = empty in block 0 of 2 i
1.3 fetch 0 = waiting
0.3 reset 0 = stillwaiting
waiting 0 = 1.3
1.4 store 0 6 = stored
collect 1.3 = value 6
0.4 reset 1 = noblock
-- What was told stands, and a reset that comes again acts once.
0.2 reset 0 = cleared
cell 0 = full 6 in block 0 of 2 i
0.2 reset 1 = refused 4 Mismatch
0.2 release 0 = refused 4 Mismatch
accepted = 8
kept 0.2 = reset 0 -> cleared

# A reset of a block of M cells, and of what is no base
memory 4 cells 2 elements = made
0.1 alloc m 2 = base 0
0.2 alloc i 1 = base 2
1.1 put 0 7 = stored
1.2 put 1 8 = stored
1.3 put 1 9 = clash
1.4 store 2 5 = stored
0.3 reset 0 = cleared
cell 0 = empty in block 0 of 2 m
cell 1 = empty in block 0 of 2 m
cell 2 = full 5 in block 2 of 1 i
1.5 take 1 = waiting
0.4 reset 0 = stillwaiting
1.6 put 1 3 = stored
collect 1.5 = value 3
0.5 reset 0 = cleared
0.6 reset 1 = noblock
0.7 reset 3 = noblock
0.8 reset 4 = noblock
0.9 reset 4294967295 = noblock

# A request that comes again acts once, and one that can't come is refused
memory 4096 cells 16 elements = made
0.1 alloc i 1 = base 0
1.1 fetch 0 = waiting
1.1 fetch 0 = waiting
1.1 fetch 1 = refused 4 Mismatch
1.3 fetch 0 = refused 1 Gap
1.0 fetch 0 = refused 2 Forgotten
16.1 fetch 0 = refused 5 NoElement
accepted = 2
waiting 0 = 1.1
2.1 store 0 3 = stored
1.1 fetch 0 = value 3
accepted = 3
window 1 = 1 2

# Sixty-five fetches of one element need one confirmation
memory 4096 cells 16 elements = made
0.1 alloc i 1 = base 0
accepted = 1
1.1 to 64 fetch 0 = 64 wait
accepted = 65
1.65 fetch 0 = refused 3 WindowFull
-- What waits can't be forgotten, nor what isn't there.
confirm 1 2 = refused 6 NotAnswered
confirm 1 66 = refused 1 Gap
2.1 store 0 8 = stored
confirm 1 65 = confirmed
1.1 fetch 0 = refused 2 Forgotten
1.65 fetch 0 = value 8
-- Leave that was given before changes nothing.
confirm 1 1 = confirmed
confirm 16 1 = refused 5 NoElement
accepted = 68
window 1 = 65 66
window 16 = refused 5 NoElement

# Every entry of every window can wait at one cell, and one store answers them all
memory 1 cells 3 elements = made
0.1 alloc i 1 = base 0
confirm 0 2 = confirmed
0.2 to 65 fetch 0 = 64 wait
1.1 to 64 fetch 0 = 64 wait
2.1 to 63 fetch 0 = 63 wait
waiter 0 190 = 2.63
waiter 0 191 = none
-- The last request that has room is the store.
2.64 store 0 6 = stored
collect 0.2 = value 6
collect 1.64 = value 6
collect 2.63 = value 6
waiting 0 =

# The least memory serves its one element at its one cell
memory 1 cells 1 elements = made
0.1 alloc i 1 = base 0
0.2 fetch 0 = waiting
0.3 store 0 0 = stored
collect 0.2 = value 0
1.1 fetch 0 = refused 5 NoElement
collect 0.4 = refused 1 Gap
collect 0.0 = refused 2 Forgotten
collect 1.1 = refused 5 NoElement
cells = 1
elements = 1
kept 0.3 = store 0 0 -> stored
kept 0.4 = none

# The records of a memory show each cell
memory 4 cells 3 elements = made
0.1 alloc i 1 = base 0
0.2 alloc m 2 = base 1
1.1 fetch 0 = waiting
2.1 fetch 0 = waiting
1.2 fetch 0 = waiting
0.3 put 2 9 = stored
record 1 = empty in block 1 of 2 m
record 2 = full 9 in block 1 of 2 m
record 3 = free hole 0 next none
-- Past the cells.
record 4 = free hole 0 next none

# The records of a memory show who waits, in the nodes of the cell's list
memory 4 cells 3 elements = made
0.1 alloc i 1 = base 0
0.2 alloc m 2 = base 1
1.1 fetch 0 = waiting
2.1 fetch 0 = waiting
1.2 fetch 0 = waiting
0.3 put 2 9 = stored
record 0 = waiting in block 0 of 1 i
nodes 0 = 1.1 2.1 1.2
-- All other nodes are free, and past the nodes too.
listed 192 = 3
node 192 = free next none

# Thrown commands leave both memories in order
-- A command is accepted exactly where it changes its element's window; each request that waits stands once at its cell,
-- and at no other; a cell is waiting exactly where somebody waits for it; and blocks are whole.
memory 8 cells 3 elements = made
walk 400 from 1 = 400 steps agree
