# A block goes to the least place that has room for it
table 4096 cells = made
place i 2 = 0
place i 3 = 2
place m 2 = 5
release 2 = true
-- The hole from 2 to 4 is too small for four cells, and right for three.
place i 4 = 7
place i 3 = 2
-- 3 lies within a block, and is the base of none.
release 3 = false
cell 5 = empty in block 5 of 2 m
cell 6 = empty in block 5 of 2 m

# A block stays as long as one of its cells is waited for
table 8 cells = made
place i 3 = 0
cell 1 = empty in block 0 of 3 i
set 1 waiting = set
release 0 = false
cell 1 = waiting in block 0 of 3 i
set 1 full 9 = set
release 0 = true
cell 1 = free

# A block whose cells become empty again stays where it is, but not while one of them is waited for
table 8 cells = made
place m 3 = 0
place i 2 = 3
set 0 full 7 = set
set 1 clashed 8 = set
set 2 waiting = set
set 3 full 9 = set
reset 0 = false
cell 0 = full 7 in block 0 of 3 m
cell 1 = clashed 8 in block 0 of 3 m
set 2 empty = set
reset 0 = true
cell 0 = empty in block 0 of 3 m
cell 1 = empty in block 0 of 3 m
cell 2 = empty in block 0 of 3 m
-- The block behind it is as before. 4 lies within it, 5 is free, and 8 lies past the last cell.
cell 3 = full 9 in block 3 of 2 i
reset 4 = false
reset 5 = false
reset 8 = false
place i 3 = 5
release 0 = true

# A table without cells has no place
table 0 cells = made
place i 1 = none
reset 0 = false
cell 0 = free

# The largest table is one block
table 1048576 cells = made
place i 1048576 = 0
cell 1048575 = empty in block 0 of 1048576 i
cell 1048576 = free
set 1048575 full 18446744073709551615 = set
reset 0 = true
cell 1048575 = empty in block 0 of 1048576 i
release 0 = true
place m 1048575 = 0
place i 1 = 1048575

# All cells are taken one by one and given back in another order, and the holes are one again
table 65536 cells = made
fill 65536 = 65536 blocks
place i 1 = none
-- The even cells, from the last, and then the odd cells, from the first.
release 32768 from 65534 down = 32768 blocks
release 32768 from 1 up = 32768 blocks
place m 65536 = 0

# A long block goes into a hole that is just long enough, and long holes that meet are one
table 100 cells = made
place i 40 = 0
place i 40 = 40
place i 20 = 80
place i 1 = none
release 40 = true
-- The hole from 40 to 79.
place i 41 = none
place i 40 = 40
release 0 = true
release 40 = true
-- The hole from 0 to 79.
place m 80 = 0
place i 1 = none

# Of single cells far apart the least is taken, and two that meet have room for two
table 100 cells = made
fill 100 = 100 blocks
release 97 = true
release 63 = true
release 64 = true
release 15 = true
place i 2 = 63
place i 1 = 15
place i 1 = 97
place i 1 = none

# Thrown calls do to a table what they do to plain slots
-- After each call every address shows the same in both, those past the last cell too.
table 24 cells = made
walk 20000 from 1 = 20000 steps agree

# A table of free cells alone is one hole when it is restored
table 8 cells = made
restore = 8 cells
place i 8 = 0
place i 1 = none

# A table that is one block is restored with no hole
table 8 cells = made
place i 8 = 0
restore = 8 cells
place i 1 = none

# A table of three blocks is restored with no hole
table 8 cells = made
place i 2 = 0
place i 3 = 2
place i 3 = 5
restore = 8 cells
place i 1 = none

# A hole before a block is found in the restored table
table 8 cells = made
place i 3 = 0
place i 5 = 3
release 0 = true
restore = 8 cells
place i 4 = none
place i 3 = 0
place i 1 = none

# A hole between two blocks is found in the restored table
table 8 cells = made
place i 3 = 0
place i 2 = 3
place i 3 = 5
release 3 = true
restore = 8 cells
place i 3 = none
place i 2 = 3
place i 1 = none

# A hole behind a block is found in the restored table
table 8 cells = made
place i 5 = 0
restore = 8 cells
place i 4 = none
place i 3 = 5
place i 1 = none

# Two blocks that went side by side are one hole of the restored table
table 8 cells = made
place i 2 = 0
place i 3 = 2
place i 3 = 5
release 0 = true
release 2 = true
restore = 8 cells
place i 6 = none
place i 5 = 0
place i 1 = none

# Of three holes in a restored table the least that has room is taken
table 8 cells = made
place i 1 = 0
place i 2 = 1
place i 2 = 3
place i 1 = 5
place i 2 = 6
release 0 = true
release 3 = true
release 6 = true
restore = 8 cells
place i 3 = none
place i 2 = 3
place i 2 = 6
place i 1 = 0
place i 1 = none

# The block of a restored table goes, and its cells are one hole
table 8 cells = made
place i 8 = 0
restore = 8 cells
-- 1 lies within the block.
release 1 = false
release 0 = true
place i 8 = 0
place i 1 = none

# Cells that come back join the hole before them in a restored table
table 8 cells = made
place i 3 = 0
place i 2 = 3
place i 3 = 5
release 0 = true
restore = 8 cells
release 3 = true
place i 6 = none
place i 5 = 0
place i 1 = none

# Cells that come back join the hole behind them in a restored table
table 8 cells = made
place i 3 = 0
place i 2 = 3
place i 3 = 5
release 3 = true
restore = 8 cells
release 0 = true
place i 6 = none
place i 5 = 0
place i 1 = none

# Cells that come back between two holes of a restored table make one of both
table 8 cells = made
place i 3 = 0
place i 2 = 3
place i 3 = 5
release 0 = true
release 5 = true
restore = 8 cells
release 3 = true
place i 8 = 0
place i 1 = none

# A restored cell has its presence tag, its block and its value
table 6 cells = made
place m 4 = 0
set 0 empty = set
set 1 waiting = set
set 2 full 9 = set
set 3 clashed 18446744073709551615 = set
restore = 6 cells
cell 0 = empty in block 0 of 4 m
cell 1 = waiting in block 0 of 4 m
cell 2 = full 9 in block 0 of 4 m
cell 3 = clashed 18446744073709551615 in block 0 of 4 m
cells = 6
cell 4 = free
-- Cell 1 is still waited for.
release 0 = false
place i 2 = 4

# No records are a table without cells
table 0 cells = made
restore = 0 cells
cells = 0
place i 1 = none

# Thrown calls go on in a table that is restored after each fourth of them
table 24 cells restored = made
walk 5000 from 3 = 5000 steps agree

# A table of as many holes as there can be is restored
table 65536 cells = made
fill 65536 = 65536 blocks
-- The odd cells, from the last.
release 32768 from 65535 down = 32768 blocks
restore = 65536 cells
place i 2 = none
release 0 = true
place i 3 = none
place i 2 = 0
place i 1 = 3
