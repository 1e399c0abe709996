# Each presence tag of a cell has its own 32 bytes
-- A cell in no block begins a hole of three cells, and there is no hole behind it.
spell cell free hole 3 next none = 00*4 03 00*3 ff*12 00*12
read = free hole 3 next none
-- Here another hole begins at cell 7.
spell cell free hole 67305985 next 7 = 00*4 01 02 03 04 07 00*3 ff*8 00*12
read = free hole 67305985 next 7
spell cell empty in block 2 of 5 i = 01 01 00 00 02 00*3 05 00*3 ff*8 00*12
read = empty in block 2 of 5 i
spell cell waiting 9 2571 in block 0 of 1 m = 02 02 00*6 01 00*3 09 00*3 0b 0a 00*14
read = waiting 9 2571 in block 0 of 1 m
spell cell full 578437695752307201 in block 0 of 2 i = 03 01 00*6 02 00*3 ff*8 00*4 01 02 03 04 05 06 07 08
read = full 578437695752307201 in block 0 of 2 i
spell cell clashed 42 in block 65536 of 1 i = 04 01 00*4 01 00 01 00*3 ff*8 00*4 2a 00*7
read = clashed 42 in block 65536 of 1 i

# The bytes of a full cell that are no fields have to be what they are
spell cell full 42 in block 0 of 2 i = 03 01 00*6 02 00*3 ff*8 00*4 2a 00*7
-- Zeros
byte 2..3 1 = refused 2..3
byte 20..23 1 = refused 20..23
-- A full cell has no list of waiters: it links nowhere.
byte 12..19 0 = refused 12..19
-- The tag 3 is full, and 4 is clashed; a cell with another tag has no value.
byte 0 0..255 = refused 0..2, read 3..4, refused 5..255
-- The kinds are 1 and 2.
byte 1 0..255 = refused 0, read 1..2, refused 3..255
-- A byte too few, and a byte too many
short = refused
read cell 00*33 = refused

# An empty cell has no value
spell cell empty in block 0 of 2 i = 01 01 00*6 02 00*3 ff*8 00*12
byte 24..31 1 = refused 24..31

# A cell in no block has no tag, no list and no value
spell cell free hole 1 next 0 = 00*4 01 00*7 ff*8 00*12
byte 12..31 1 = refused 12..31
byte 0 0..255 = read 0, refused 1..255

# A waiter node stands in the list of free nodes, or in the list of a cell
spell node free next none = ff*4 00*12
read = free next none
spell node free next 258 = 02 01 00*14
read = free next 258
-- Request 3 of element 1 is the last one that waits for its cell.
spell node 1.3 next none = ff*4 01 00 01 00 03 00*7
read = 1.3 next none
-- The last number that there is
spell node 515.4611686018427387904 next 5 = 05 00*3 03 02 01 00*8 40
read = 515.4611686018427387904 next 5

# A waiter node that is spelled another way is none
spell node free next 3 = 03 00*15
byte 4..15 2 = refused 4..15
-- The mark of a node in a list is 1, in two bytes. With mark 0 the node is free, and has no waiter.
spell node 1.1 next 3 = 03 00*3 01 00 01 00 01 00*7
byte 6 0..255 = refused 0, read 1, refused 2..255
byte 7 0..255 = read 0, refused 1..255
-- A byte too few
read node 00*15 = refused

# A kept entry shows what was asked, and what it came to
spell entry alloc i 9 -> base 4 = 01 00 01 00 09 00*11 04 00*15
read = alloc i 9 -> base 4
spell entry alloc m 9 -> nospace = 02 00 02 00 09 00*27
read = alloc m 9 -> nospace
spell entry alloc i 0 -> badlength = 01 00 03 00*29
read = alloc i 0 -> badlength
spell entry release 7 -> released = 03 00 09 00 07 00*27
read = release 7 -> released
spell entry release 7 -> noblock = 03 00 0a 00 07 00*27
read = release 7 -> noblock
spell entry release 7 -> stillwaiting = 03 00 0b 00 07 00*27
read = release 7 -> stillwaiting
spell entry reset 7 -> cleared = 09 00 0c 00 07 00*27
read = reset 7 -> cleared
spell entry reset 4294967295 -> stillwaiting = 09 00 0b 00 ff*4 00*24
read = reset 4294967295 -> stillwaiting
spell entry fetch 5 -> value 42 = 04 00 04 00 05 00*11 2a 00*15
read = fetch 5 -> value 42
spell entry store 5 42 -> stored = 05 00 05 00 05 00*3 2a 00*23
read = store 5 42 -> stored
spell entry store 5 42 -> clash = 05 00 06 00 05 00*3 2a 00*23
read = store 5 42 -> clash
spell entry take 6 -> nocell = 06 00 07 00 06 00*27
read = take 6 -> nocell
spell entry put 6 3 -> wrongkind = 07 00 08 00 06 00*3 03 00*23
read = put 6 3 -> wrongkind
-- The fetch is deferred.
spell entry fetch 5 -> waiting = 04 00*3 05 00*27
read = fetch 5 -> waiting
-- A place with no entry
spell entry none = 00*32
read = none

# A kept entry that is spelled another way is none
spell entry fetch 5 -> waiting = 04 00*3 05 00*27
byte 1 1 = refused 1
byte 3 1 = refused 3
-- A fetch has no value to store, and while it waits it has none that was read.
byte 8..31 1 = refused 8..31
-- The operations are 1 to 7 and 9, and the replies 0 to 12, of which 0 is that there is none yet.
byte 0 0..255 = refused 0, read 1..7, refused 8, read 9, refused 10..255
byte 2 0..255 = read 0..12, refused 13..255
-- No byte at all
read entry = refused
-- A base lies below 2^32.
spell entry alloc i 9 -> base 4 = 01 00 01 00 09 00*11 04 00*15
byte 20 1 = refused 20
