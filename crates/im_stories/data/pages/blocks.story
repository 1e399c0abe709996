# Each cell of a block says that it lies in it
cells 4 = 4
-- No block
blocks = yes
-- A block of two
cell 1 empty in block 1 of 2 i = set
cell 2 empty in block 1 of 2 i = set
blocks = yes
-- Two blocks side by side
cell 0 empty in block 0 of 2 i = set
cell 1 empty in block 0 of 2 i = set
cell 2 empty in block 2 of 2 i = set
cell 3 empty in block 2 of 2 i = set
blocks = yes
-- A block of all cells
cell 0 empty in block 0 of 4 i = set
cell 1 empty in block 0 of 4 i = set
cell 2 empty in block 0 of 4 i = set
cell 3 empty in block 0 of 4 i = set
blocks = yes
-- No cell
cells 0 = 0
blocks = yes

# Two cells that disagree are no block
cells 4 = 4
cell 1 empty in block 1 of 2 i = set
-- Another length
cell 2 empty in block 1 of 3 i = set
blocks = no
-- Another base
cell 2 empty in block 2 of 1 i = set
blocks = no
-- A second cell that is free
cell 2 free hole 0 next none = set
blocks = no
-- A first cell that is free
cell 1 free hole 0 next none = set
cell 2 empty in block 1 of 2 i = set
blocks = no

# Another cell doesn't lie in the block
cells 4 = 4
-- A cell before its block
cell 0 empty in block 1 of 2 i = set
cell 1 empty in block 1 of 2 i = set
cell 2 empty in block 1 of 2 i = set
blocks = no
-- A cell behind its block
cell 0 free hole 0 next none = set
cell 3 empty in block 1 of 2 i = set
blocks = no

# A block has a cell, and ends where the cells end
cells 4 = 4
-- A block past the last cell
cell 3 empty in block 3 of 2 i = set
blocks = no
-- A block that ends past all numbers
cell 3 empty in block 3 of 4294967295 i = set
blocks = no
-- A block of no cell
cell 3 free hole 0 next none = set
cell 0 empty in block 0 of 0 i = set
blocks = no

# The cells of a block are of one kind
cells 2 = 2
cell 0 empty in block 0 of 2 m = set
cell 1 empty in block 0 of 2 m = set
blocks = yes
cell 0 empty in block 0 of 2 i = set
blocks = no
