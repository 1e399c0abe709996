# Three readers of a cell are read in their order
-- Cell 0 is free, cell 1 is waited for, cell 2 is full. The list goes over the nodes 2, 0 and 3.
cells 3 = 3
cell 1 waiting 2 3 in block 1 of 1 i = set
cell 2 full 7 in block 2 of 1 i = set
nodes 4 = 4
node 2 1.3 next 0 = set
node 0 0.2 next 3 = set
node 3 1.5 next none = set
lists = 3
waiting 0 =
waiting 1 = 1.3 0.2 1.5
waiting 2 =

# The lists of several cells are apart
-- Cell 0 has the nodes 3 and 1, and cell 2 has node 2. A free cell lies between them.
cells 3 = 3
cell 0 waiting 3 1 in block 0 of 1 i = set
cell 2 waiting 2 2 in block 2 of 1 i = set
nodes 4 = 4
node 1 2.1 next none = set
node 2 3.1 next none = set
node 3 4.1 next 1 = set
lists = 3
waiting 0 = 4.1 2.1
waiting 1 =
waiting 2 = 3.1

# Where nobody waits the lists are empty
nodes 16 = 16
cells 2 = 2
lists = 2
waiting 0 =
waiting 1 =
nodes 0 = 0
cells 0 = 0
lists = 0

# A circle of links is no list
-- The list of cell 0 begins in node 0 and ends in node 1.
cells 2 = 2
cell 0 waiting 0 1 in block 0 of 1 i = set
nodes 3 = 3
-- Two nodes in a circle
node 0 1.1 next 1 = set
node 1 2.1 next 0 = set
lists = refused 15 BadPage
-- A node linked to itself
node 0 1.1 next 0 = set
node 1 2.1 next none = set
lists = refused 15 BadPage
-- A circle behind the last node
node 0 1.1 next 1 = set
node 1 2.1 next 2 = set
node 2 3.1 next 1 = set
lists = refused 15 BadPage

# A list ends where its cell says
cells 2 = 2
cell 0 waiting 0 1 in block 0 of 1 i = set
nodes 3 = 3
-- The end comes before the last node.
node 0 1.1 next none = set
node 1 2.1 next none = set
lists = refused 15 BadPage
-- A link at the last node
node 0 1.1 next 1 = set
node 1 2.1 next 2 = set
node 2 3.1 next none = set
lists = refused 15 BadPage
-- A link to no node
node 0 1.1 next 3 = set
node 1 2.1 next none = set
node 2 free next none = set
lists = refused 15 BadPage
-- The list as it should be
node 0 1.1 next 1 = set
lists = 2
waiting 0 = 1.1 2.1

# A node that is marked as one of a list stands in one list, once
cells 2 = 2
nodes 3 = 3
-- Two lists with one last node
cell 0 waiting 0 2 in block 0 of 1 i = set
cell 1 waiting 1 2 in block 1 of 1 i = set
node 0 1.1 next 2 = set
node 1 2.1 next 2 = set
node 2 3.1 next none = set
lists = refused 15 BadPage
-- A node that no list reaches
cell 0 waiting 0 1 in block 0 of 1 i = set
cell 1 free hole 0 next none = set
node 0 1.1 next 1 = set
node 1 2.1 next none = set
lists = refused 15 BadPage
-- A node, and no list
cell 0 free hole 0 next none = set
node 0 free next none = set
node 2 free next none = set
lists = refused 15 BadPage
-- A list read twice
cell 0 waiting 0 0 in block 0 of 1 i = set
cell 1 waiting 0 0 in block 1 of 1 i = set
node 0 1.1 next none = set
node 1 free next none = set
lists = refused 15 BadPage

# A list goes over nodes that are marked, and that there are
cells 2 = 2
nodes 3 = 3
-- A free node in a list
cell 0 waiting 0 1 in block 0 of 1 i = set
node 0 1.1 next 1 = set
lists = refused 15 BadPage
-- A list that begins in a free node
node 0 free next none = set
node 1 2.1 next none = set
lists = refused 15 BadPage
-- A list that begins nowhere
node 1 free next none = set
cell 0 waiting none none in block 0 of 1 i = set
lists = refused 15 BadPage
-- A list that begins past the nodes
cell 0 waiting 3 3 in block 0 of 1 i = set
lists = refused 15 BadPage

# Where there is no window nobody may wait
cells 1 = 1
nodes 1 = 1
lists = 1
agree = yes
-- Request 1 of element 0 waits, and has no entry.
cell 0 waiting 0 0 in block 0 of 1 i = set
node 0 0.1 next none = set
lists = 1
agree = no
