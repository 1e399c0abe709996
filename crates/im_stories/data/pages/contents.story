# Who waits at a cell has a waiting entry for it
limits 2 2 16 = 2 2 16
cells 2 = 2
nodes 4 = 4
windows 2 = 2
-- Nobody waits: the entry is answered.
cell 0 empty in block 0 of 1 i = set
keep 0 fetch 0 -> value 3 = 0.1
contents = 2
-- A fetch waits.
cell 0 waiting 0 0 in block 0 of 1 i = set
node 0 0.1 next none = set
window 0 1 = set
keep 0 fetch 0 -> waiting = 0.1
contents = 2
-- It waits, and another element's entry is answered.
keep 1 fetch 0 -> value 3 = 1.1
contents = 2
-- Two fetches wait.
cell 0 waiting 0 1 in block 0 of 1 i = set
node 0 0.1 next 1 = set
node 1 1.1 next none = set
window 1 1 = set
keep 1 fetch 0 -> waiting = 1.1
contents = 2
-- A take waits.
cell 0 waiting 0 0 in block 0 of 1 m = set
node 0 0.1 next none = set
node 1 free next none = set
windows 2 = 2
keep 0 take 0 -> waiting = 0.1
contents = 2

# An entry that waits stands in one list, once
limits 2 2 16 = 2 2 16
cells 2 = 2
nodes 4 = 4
windows 2 = 2
-- No list
cell 0 empty in block 0 of 1 i = set
keep 0 fetch 0 -> waiting = 0.1
contents = refused 15 BadPage
-- An entry beside the list
cell 0 waiting 0 0 in block 0 of 1 i = set
node 0 0.1 next none = set
keep 1 fetch 0 -> waiting = 1.1
contents = refused 15 BadPage
-- Two nodes for one request, and the other element's request in none
cell 0 waiting 0 1 in block 0 of 1 i = set
node 0 0.1 next 1 = set
node 1 0.1 next none = set
contents = refused 15 BadPage
-- Two nodes for the only request
window 1 1 = set
contents = refused 15 BadPage

# Who waits has an entry, and it waits
limits 2 2 16 = 2 2 16
cells 2 = 2
cell 0 waiting 0 0 in block 0 of 1 i = set
nodes 4 = 4
node 0 0.1 next none = set
windows 2 = 2
-- No entry
contents = refused 15 BadPage
-- An answered one
keep 0 fetch 0 -> value 3 = 0.1
contents = refused 15 BadPage
-- An element without a window
windows 2 = 2
node 0 2.1 next none = set
contents = refused 15 BadPage

# An entry waits for the cell in whose list it stands
limits 2 2 16 = 2 2 16
cells 2 = 2
cell 0 waiting 0 0 in block 0 of 1 i = set
nodes 4 = 4
node 0 0.1 next none = set
windows 2 = 2
-- A fetch of another cell
keep 0 fetch 1 -> waiting = 0.1
contents = refused 15 BadPage
-- A take at an I cell
window 0 1 = set
keep 0 take 0 -> waiting = 0.1
contents = refused 15 BadPage
-- A fetch at an M cell
cell 0 waiting 0 0 in block 0 of 1 m = set
window 0 1 = set
keep 0 fetch 0 -> waiting = 0.1
contents = refused 15 BadPage

# A memory is read with its lists
-- A block of two I cells: the first is full with 9, and both elements wait for the other.
limits 2 2 16 = 2 2 16
cells 2 = 2
cell 0 full 9 in block 0 of 2 i = set
cell 1 waiting 2 0 in block 0 of 2 i = set
nodes 4 = 4
node 2 1.1 next 0 = set
node 0 0.2 next none = set
windows 2 = 2
keep 0 store 0 9 -> stored = 0.1
keep 0 fetch 1 -> waiting = 0.2
keep 1 fetch 1 -> waiting = 1.1
contents = 2
waiting 0 =
waiting 1 = 1.1 0.2

# A window begins at 1 or later, and ends at the last number
limits 2 2 16 = 2 2 16
cells 2 = 2
nodes 32 = 32
windows 2 = 2
-- No entry
contents = 2
-- Sixty-four entries
keep 0 reset 0 -> cleared = 0.1
keep 0 release 0 -> noblock = 0.2
keep 0 62 stores = 0.3 to 64
contents = 2
-- Base 0
window 0 0 = set
contents = refused 15 BadPage
-- The last number
window 0 4611686018427387904 = set
keep 0 release 0 -> noblock = 0.4611686018427387904
contents = 2
-- All numbers are confirmed.
window 0 4611686018427387905 = set
contents = 2
-- A number past the last
keep 0 release 0 -> noblock = 0.4611686018427387905
contents = refused 15 BadPage

# Parts that are no memory are refused
limits 2 2 16 = 2 2 16
nodes 32 = 32
windows 2 = 2
-- A cell too few
cells 1 = 1
contents = refused 15 BadPage
-- A cell too many
cells 3 = 3
contents = refused 15 BadPage
-- A window too few
cells 2 = 2
windows 1 = 1
contents = refused 15 BadPage
windows 2 = 2
contents = 2
-- Half a block
cell 0 empty in block 0 of 2 i = set
contents = refused 15 BadPage
-- A list of a free node
cell 0 waiting 0 0 in block 0 of 1 i = set
contents = refused 15 BadPage
-- A node in no list
cells 2 = 2
nodes 1 = 1
node 0 0.1 next none = set
contents = refused 15 BadPage
