# The least area has a page of each kind of record
-- One cell in no block, sixty-four free nodes, the first ones linked one to the next, and a window that keeps nothing
limits 1 1 16 = 1 1 16
cells 1 = 1
cell 0 free hole 1 next none = set
nodes 64 = 64
node 0 free next 1 = set
node 1 free next 2 = set
node 2 free next 3 = set
node 3 free next 4 = set
node 4 free next 5 = set
node 5 free next 6 = set
node 6 free next 7 = set
node 7 free next 8 = set
node 8 free next 9 = set
node 9 free next 10 = set
node 10 free next 11 = set
node 11 free next 12 = set
node 12 free next 13 = set
node 13 free next 14 = set
node 14 free next 15 = set
windows 1 = 1
-- What stood on the pages is gone, since each place of theirs is put.
pages = 12288
bytes 0 4096 = 00*4 01 00*3 ff*12 00*4076
bytes 4096 64 = 01 00*15 02 00*15 03 00*15 04 00*15
bytes 4160 64 = 05 00*15 06 00*15 07 00*15 08 00*15
bytes 4224 64 = 09 00*15 0a 00*15 0b 00*15 0c 00*15
bytes 4288 64 = 0d 00*15 0e 00*15 0f 00*15 ff*4 00*12
bytes 4352 32 = ff*4 00*12 ff*4 00*12
bytes 5104 16 = ff*4 00*12
bytes 5120 3072 = 00*3072
bytes 8192 4096 = 01 00*4095
-- And so it is read back.
read = 1 cells 64 nodes 1 windows
area cell 0 = free hole 1 next none
area node 3 = free next 4
area node 15 = free next none
area node 63 = free next none
area node 64 = none
area window 0 = base 1 with 0

# An area with a number out of its bounds, or with a byte behind its records, is refused
limits 1 1 16 = 1 1 16
cells 1 = 1
cell 0 free hole 1 next none = set
nodes 64 = 64
windows 1 = 1
pages = 12288
read = 1 cells 64 nodes 1 windows
-- A hole has at most as many cells as there are, and the next one begins at a cell.
byte 4 0..255 = read 0..1, refused 15 BadPage 2..255
byte 8 0..255 = refused 15 BadPage 0..254, read 255
-- A free cell has no tag.
byte 0 1 = refused 15 BadPage 0
-- Behind the cells
byte 32..63 1 = refused 15 BadPage 32..63
byte 4095 1 = refused 15 BadPage 4095
-- Behind the nodes
byte 5120..5135 1 = refused 15 BadPage 5120..5135
byte 8191 1 = refused 15 BadPage 8191
-- A window has another base, or none.
byte 8192 0..255 = refused 15 BadPage 0, read 1..255
-- Behind the places of the session
byte 10272..10303 1 = refused 15 BadPage 10272..10303
byte 12287 1 = refused 15 BadPage 12287

# A node links to one of the nodes
limits 1 1 16 = 1 1 16
cells 1 = 1
nodes 64 = 64
node 0 free next 1 = set
windows 1 = 1
pages = 12288
byte 4096 0..255 = read 0..63, refused 15 BadPage 64..255

# A cell lies in a block of the cells that there are, and its list has ends among the nodes
limits 1 1 16 = 1 1 16
cells 1 = 1
nodes 64 = 64
windows 1 = 1
-- A block of the one cell
cell 0 full 1 in block 0 of 1 i = set
pages = 12288
read = 1 cells 64 nodes 1 windows
-- A block of two cells
cell 0 full 1 in block 0 of 2 i = set
pages = 12288
read = refused 15 BadPage
-- A block behind the cells
cell 0 full 1 in block 1 of 1 i = set
pages = 12288
read = refused 15 BadPage
-- A block that ends past all numbers
cell 0 full 1 in block 4294967295 of 2 m = set
pages = 12288
read = refused 15 BadPage
-- A list of nodes
cell 0 waiting 0 63 in block 0 of 1 i = set
pages = 12288
read = 1 cells 64 nodes 1 windows
-- A first node that there isn't
cell 0 waiting 64 0 in block 0 of 1 i = set
pages = 12288
read = refused 15 BadPage
-- A last node that there isn't
cell 0 waiting 0 none in block 0 of 1 i = set
pages = 12288
read = refused 15 BadPage
-- A hole at its own address
cell 0 free hole 1 next 0 = set
pages = 12288
read = 1 cells 64 nodes 1 windows

# A session is put over all that stood on its page
windows 1 = 1
window 0 63 = set
keep 0 alloc i 9 -> base 4 = 0.63
keep 0 fetch 5 -> waiting = 0.64
keep 0 store 6 42 -> stored = 0.65
spell session 0 at 0 = 4096
bytes 0 32 = 3f 00*7 03 00*23
bytes 32 32 = 04 00*3 05 00*27
bytes 64 32 = 05 00 05 00 06 00*3 2a 00*23
bytes 96 1952 = 00*1952
bytes 2048 32 = 01 00 01 00 09 00*11 04 00*15
bytes 2080 2016 = 00*2016

# The least area of the first version has sixteen nodes, and a quarter of a page for its window
-- All of a window that keeps nothing but its base is zeros, in each version.
limits 1 1 16 = 1 1 16
cells 1 = 1
cell 0 free hole 1 next none = set
nodes 16 = 16
node 0 free next 1 = set
windows 1 = 1
pages = 12288
-- By the second version there are 48 nodes more, and a free one isn't all zeros; but zeros link it to node 0.
read = 1 cells 64 nodes 1 windows
area node 16 = free next 0
version 1 = 1
read = 1 cells 16 nodes 1 windows
area node 15 = free next none
area node 16 = none
area window 0 = base 1 with 0
byte 4096 0..255 = read 0..15, refused 15 BadPage 16..255
-- Behind the nodes
byte 4352..4367 1 = refused 15 BadPage 4352..4367
byte 8191 1 = refused 15 BadPage 8191
-- Behind the places, and behind the sessions
byte 8736..8751 1 = refused 15 BadPage 8736..8751
byte 9216..9247 1 = refused 15 BadPage 9216..9247
byte 12287 1 = refused 15 BadPage 12287
-- A list ends among the sixteen nodes.
cell 0 waiting 0 15 in block 0 of 1 i = set
pages = 12288
read = 1 cells 16 nodes 1 windows
cell 0 waiting 0 16 in block 0 of 1 i = set
pages = 12288
read = refused 15 BadPage
version 2 = 2
read = 1 cells 64 nodes 1 windows
