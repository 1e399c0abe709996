-- A checkpoint brings the memory to the area that isn't in force, a turn at a time, and then puts that area in force.
-- Bytes are two hex digits each, and `00*31` are 31 zeros.
-- Its words, besides those of an image (image.story), are:
-- checkpoint CELLS ELEMENTS SLOTS    an empty memory, a new journal, and no checkpoint yet
-- serve COMMAND                  puts the command on the disk; then it acts
-- turn                           a turn of the checkpoint

# The least memory goes to the disk in these turns
disk 33792 = blank
checkpoint 1 1 16 = idle
serve 0.1 alloc i 1 = base 0
serve 0.2 fetch 0 = waiting
serve 0.3 store 0 0 = stored
-- Four calls for each command.
calls = 12
room = 13
turn = began
calls = 12
-- A page of cells, one of nodes, and one of sessions: a call each.
turn = page 0
calls = 13
turn = page 1
calls = 14
turn = page 2
calls = 15
turn = synced
calls = 17
turn = in force
calls = 21
-- The three slots of commands that are on the pages now.
turn = swept
calls = 25
turn = idle
calls = 25
room = 16

# The next header stands in the place of the other area, with the count of commands that the pages have
disk 33792 = blank
checkpoint 1 1 16 = idle
serve 0.1 alloc i 1 = base 0
serve 0.2 fetch 0 = waiting
serve 0.3 store 0 0 = stored
turn = began
turn = page 0
turn = page 1
turn = page 2
turn = synced
turn = in force
-- An open gate, area 1, version 2, IMEM; generation 2; count 3; 1 cell, 1 element; 16 slots.
read 4096 8 = a5 01 02 00 49 4d 45 4d
read 4104 8 = 02 00 00 00 00 00 00 00
read 4112 8 = 03 00 00 00 00 00 00 00
read 4120 8 = 01 00 00 00 01 00 00 00
read 4128 32 = 10 00*31

# A turn that fails changes nothing
disk 33792 = blank
checkpoint 1 1 16 = idle
serve 0.1 alloc i 1 = base 0
serve 0.2 fetch 0 = waiting
serve 0.3 store 0 0 = stored
turn = began
-- A disk whose first call fails.
disk 33792 = blank
fuse 0 once = so
turn = refused 8 Device
turn = page 0
