-- An image: two headers, two areas of pages, and a journal. Bytes are two hex digits each, and `00*8` are eight zeros.
-- A line `with AT:BYTE .. CALL` has these bytes on the disk for its call alone.
-- Its words, besides those of a disk and of a journal, are:
-- layout CELLS ELEMENTS SLOTS    the pages of an area, where the journal begins, and the length
-- image CELLS ELEMENTS SLOTS     a new image on a disk of its own
-- old layout .., old image ..    the same by the first version of the layout; the image's header is in force
-- cut N                          a disk with the first N bytes of the disk
-- header AREA GENERATION COUNT CELLS ELEMENTS SLOTS    spells a header in its place
-- header at AREA                 the header that stands there behind its gate
-- in force                       the header in force, or the first fault of the length and the headers
-- inspect                        what the image means, or its first fault
-- to open                        the same, or that it is of the first version
-- encode AREA                    puts the pages of the memory there
-- values AT, values AT to AT     each of the 256 values of a byte, the same for each of these bytes
-- lengths to N                   each length from 0 on, cut from the image, or made longer by zeros
-- memory CELLS ELEMENTS SLOTS    an empty one
-- step COMMAND                   its answer
-- block A, waiting A             the block that a cell lies in, and who waits at it
-- collect NAME, window ELEMENT   what is kept
-- walk STEPS from SEED reading each N    random commands; after each N-th the pages are made, and read again

# A new image has the header of the format, behind a closed gate
image 4096 16 256 = 450560 bytes
-- Gate, area, version, IMEM; generation; count; cells, elements; slots.
read 0 8 = 00 00 02 00 49 4d 45 4d
read 8 8 = 01 00 00 00 00 00 00 00
read 16 8 = 00*8
read 24 8 = 00 10 00 00 10 00 00 00
read 32 8 = 00 01 00 00 00 00 00 00
read 40 8 = 00*8
-- The gate of the second header.
read 4096 1 = 00

# Images have the lengths of the format
layout 1 1 16 = 3 pages, journal at 32768, 33792 bytes
layout 4096 16 16 = 52 pages, journal at 434176, 435200 bytes
layout 4096 16 256 = 52 pages, journal at 434176, 450560 bytes
layout 65536 64 4096 = 592 pages, journal at 4857856, 5120000 bytes
layout 1048576 64 4096 = 8272 pages, journal at 67772416, 68034560 bytes
-- By the first version.
old layout 1 1 16 = 3 pages, journal at 32768, 33792 bytes
old layout 4096 16 16 = 37 pages, journal at 311296, 312320 bytes
old layout 4096 16 256 = 37 pages, journal at 311296, 327680 bytes
old layout 65536 64 4096 = 532 pages, journal at 4366336, 4628480 bytes

# A header is read exactly as it is spelled
disk 8192 = blank
header 0 1 0 1 1 16 = ok
header at 0 = version 2, area 0, generation 1, count 0, sizes 1 1 16
-- The other area, no version, the one before, a later one, another mark, no generation, and another one.
with 1:01 header at 0 = none
with 2:00 header at 0 = none
with 2:01 header at 0 = version 1, area 0, generation 1, count 0, sizes 1 1 16
with 2:09 header at 0 = none
with 4:48 header at 0 = none
with 8:00 header at 0 = none
with 8:02 header at 0 = version 2, area 0, generation 2, count 0, sizes 1 1 16
-- A generation past the last, another count, the last count, and one past it.
with 15:40 header at 0 = none
with 16:05 header at 0 = version 2, area 0, generation 1, count 5, sizes 1 1 16
with 23:40 header at 0 = version 2, area 0, generation 1, count 4611686018427387904, sizes 1 1 16
with 23:41 header at 0 = none
-- Each version has its own most cells.
with 2:01 24:00 26:01 header at 0 = version 1, area 0, generation 1, count 0, sizes 65536 1 16
with 2:01 26:01 header at 0 = none
with 26:01 header at 0 = version 2, area 0, generation 1, count 0, sizes 65537 1 16
with 24:00 26:10 header at 0 = version 2, area 0, generation 1, count 0, sizes 1048576 1 16
with 26:10 header at 0 = none
-- No cell, an element too many, a byte that has to be zero, a slot too few, and another byte that has to be zero.
with 24:00 header at 0 = none
with 28:41 header at 0 = none
with 30:01 header at 0 = none
with 32:0f header at 0 = none
with 36:01 header at 0 = none

# Faults of the length and of the headers come in their order
image 1 1 16 = 33792 bytes
-- Both gates are closed, and then one is open.
in force = refused 13 NoHeader
with 0:a5 in force = version 2, area 0, generation 1, count 0, sizes 1 1 16
-- A slot more than the file has.
with 0:a5 32:11 in force = refused 12 WrongLength
-- Two open headers of one generation, and one of a greater generation that is no header.
with 0:a5 4096:a5 4104:01 in force = refused 14 BadHeader
with 0:a5 4096:a5 4104:02 in force = refused 14 BadHeader
-- Shorter than two header places.
cut 8191 = 8191 bytes
in force = refused 12 WrongLength

# The header of the greater generation is in force
image 1 1 16 = 33792 bytes
write 0 a5 = ok
in force = version 2, area 0, generation 1, count 0, sizes 1 1 16
header 1 2 4611686018427387904 1 1 16 = ok
in force = version 2, area 1, generation 2, count 4611686018427387904, sizes 1 1 16

# An image is told, or refused at its first fault
image 1 1 16 = 33792 bytes
write 0 a5 = ok
inspect = generation 1, count 0, run 0, room 16
-- A closed gate, another area, no generation, a great one, no cell, a slot too few, a byte that has to be zero.
with 0:00 inspect = refused 13 NoHeader
with 1:01 inspect = refused 14 BadHeader
with 8:00 inspect = refused 14 BadHeader
with 15:40 inspect = refused 14 BadHeader
with 24:00 inspect = refused 14 BadHeader
with 32:0f inspect = refused 14 BadHeader
with 36:01 inspect = refused 14 BadHeader
-- Another generation, a byte behind the header, another count, and the last one, which has no room.
with 8:02 inspect = generation 2, count 0, run 0, room 16
with 64:01 inspect = generation 1, count 0, run 0, room 16
with 16:05 inspect = generation 1, count 5, run 0, room 16
with 23:40 inspect = generation 1, count 4611686018427387904, run 0, room 0
-- A page of cells more, a slot more; a cell more, on the same pages; an element more, which has a page of its own.
with 24:81 inspect = refused 12 WrongLength
with 32:11 inspect = refused 12 WrongLength
with 24:02 inspect = refused 15 BadPage
with 28:02 inspect = refused 12 WrongLength
-- A hole that leads to itself, half a block, and 17 entries with no place, or 65.
with 8200:00 8201:00 8202:00 8203:00 inspect = generation 1, count 0, run 0, room 16
block 0 = none
window 0 = 1 1
with 8192:01 8193:01 8200:02 8201:00 8202:00 8203:00 inspect = refused 15 BadPage
with 16392:11 inspect = refused 15 BadPage
with 16392:41 inspect = refused 15 BadPage
-- An open gate ahead of the count, one behind it, and a slot behind that one that isn't stale.
with 33088:a5 33096:05 inspect = refused 16 BadRecord
with 33088:a5 33096:05 16:15 inspect = generation 1, count 21, run 0, room 0
with 33088:a5 33096:05 16:15 33224:c8 inspect = refused 16 BadRecord

# An image of another length is refused, whichever it is
-- Each length in turn: the image cut short, as it is, and longer by a zero.
image 1 1 16 = 33792 bytes
write 0 a5 = ok
lengths to 33793 = WrongLength 0..33791, told 33792, WrongLength 33793

# Each value of each byte of a header counts
-- What an inspection answers for each of the 256 values, which are decimal here.
image 1 1 16 = 33792 bytes
write 0 a5 = ok
-- Gate, area, version, IMEM.
values 0 = NoHeader 0..164, told 165, NoHeader 166..255
values 1 = told 0, BadHeader 1..255
values 2 = BadHeader 0, BadPage 1, told 2, BadHeader 3..255
values 3 = told 0, BadHeader 1..255
values 4 = BadHeader 0..72, told 73, BadHeader 74..255
values 5 = BadHeader 0..76, told 77, BadHeader 78..255
values 6 = BadHeader 0..68, told 69, BadHeader 70..255
values 7 = BadHeader 0..76, told 77, BadHeader 78..255
-- Generation, and count.
values 8 = BadHeader 0, told 1..255
values 9 to 14 = told 0..255
values 15 = told 0..63, BadHeader 64..255
values 16 to 22 = told 0..255
values 23 = told 0..64, BadHeader 65..255
-- Cells, elements, slots. A cell more is on the same page, and a page more makes the image longer.
values 24 = BadHeader 0, told 1, BadPage 2..128, WrongLength 129..255
values 25 = told 0, WrongLength 1..255
values 26 = told 0, WrongLength 1..15, BadHeader 16..255
values 27 = told 0, BadHeader 1..255
values 28 = BadHeader 0, told 1, WrongLength 2..64, BadHeader 65..255
values 29 to 31 = told 0, BadHeader 1..255
values 32 = BadHeader 0..15, told 16, WrongLength 17..255
values 33 = told 0, WrongLength 1..15, BadHeader 16..255
values 34 to 63 = told 0, BadHeader 1..255

# Three readers of a cell are on the pages, and are told again in their order
memory 4096 16 256 = empty
step 0.1 alloc i 1 = base 0
step 1.1 fetch 0 = waiting
step 2.1 fetch 0 = waiting
step 1.2 fetch 0 = waiting
image 4096 16 256 = 450560 bytes
encode 0 = ok
-- The gate, and the count of four commands.
write 0 a5 = ok
write 16 04 = ok
inspect = generation 1, count 4, run 0, room 256
block 0 = i 1 at 0
block 1 = none
waiting 0 = 1.1 2.1 1.2
collect 0.1 = base 0
collect 1.1 = waiting
collect 2.1 = waiting
collect 1.2 = waiting
window 0 = 1 2
window 1 = 1 3
window 2 = 1 2
window 3 = 1 1
-- The cell's list goes from node 0 to node 2, which is its last and leads to none. A list that leads back to its first
-- node is refused.
read 8204 8 = 00 00 00 00 02 00 00 00
read 139296 4 = ff ff ff ff
write 139296 00 00 00 00 = ok
inspect = refused 15 BadPage

# A run of commands is told as the memory after it
image 4096 16 256 = 450560 bytes
write 0 a5 = ok
slot 0 0.1 alloc i 2 = ok
slot 1 1.1 fetch 0 = ok
slot 2 2.1 store 0 42 = ok
inspect = generation 1, count 0, run 3, room 253
collect 1.1 = value 42
collect 2.1 = stored
-- The second command again in the third slot: the memory doesn't accept it there.
slot 2 1.1 fetch 0 = ok
inspect = refused 16 BadRecord
-- An operation that there isn't, in the second slot.
write 434242 0a = ok
inspect = refused 16 BadRecord

# A reset in the run is told as the memory after it
image 4096 16 256 = 450560 bytes
write 0 a5 = ok
slot 0 0.1 alloc i 2 = ok
slot 1 1.1 store 0 5 = ok
slot 2 0.2 reset 0 = ok
slot 3 1.2 store 0 6 = ok
inspect = generation 1, count 0, run 4, room 252
collect 0.2 = cleared
collect 1.2 = stored

# An image of the first version is told by that version's rules, and isn't opened
old image 1 1 16 = 33792 bytes
inspect = generation 1, count 0, run 0, room 16
to open = refused 21 OldVersion
-- A closed gate, another area, no generation, no cell, a slot too few: no sound header comes first.
with 0:00 to open = refused 13 NoHeader
with 1:01 to open = refused 14 BadHeader
with 8:00 to open = refused 14 BadHeader
with 24:00 to open = refused 14 BadHeader
with 32:0f to open = refused 14 BadHeader
-- A slot more than the file has, half a block, and a slot that isn't stale: the header comes first.
with 32:11 inspect = refused 12 WrongLength
with 32:11 to open = refused 21 OldVersion
with 8192:01 8193:01 8200:02 8201:00 8202:00 8203:00 inspect = refused 15 BadPage
with 8192:01 8193:01 8200:02 8201:00 8202:00 8203:00 to open = refused 21 OldVersion
with 33088:a5 33096:05 inspect = refused 16 BadRecord
with 33088:a5 33096:05 to open = refused 21 OldVersion
-- As one of the second version it has free nodes that are linked to the first one.
with 2:02 inspect = generation 1, count 0, run 0, room 16
with 2:02 to open = generation 1, count 0, run 0, room 16
-- Of two open headers that in force counts, whatever the other is.
with 4096:a5 4097:01 4098:02 4100:49 4101:4d 4102:45 4103:4d 4104:02 4120:01 4124:01 4128:10 to open = refused 15 BadPage
cut 8191 = 8191 bytes
to open = refused 12 WrongLength

# What is read of an image of the first version has that version's bounds
old image 1 1 16 = 33792 bytes
-- Node 15 links to itself, and to a sixteenth that only the second version has.
with 12528:0f inspect = generation 1, count 0, run 0, room 16
with 12528:10 inspect = refused 15 BadPage
with 2:02 12528:10 inspect = generation 1, count 0, run 0, room 16
-- What the second version has as node 16 lies behind the nodes.
with 12544:01 inspect = refused 15 BadPage
with 2:02 12544:01 inspect = generation 1, count 0, run 0, room 16
-- Behind the session, and seventeen entries.
with 17408:01 inspect = refused 15 BadPage
with 16392:11 inspect = refused 15 BadPage
values 2 = BadHeader 0, told 1..2, BadHeader 3..255
values 24 = BadHeader 0, told 1, BadPage 2..128, WrongLength 129..255
values 25 = told 0, WrongLength 1..255
values 26 to 27 = told 0, BadHeader 1..255
values 28 = BadHeader 0, told 1, BadPage 2..4, WrongLength 5..64, BadHeader 65..255
values 33 = told 0, WrongLength 1..15, BadHeader 16..255

# The first version knows no reset in its run, and no seventeenth entry
old image 1 1 32 = 34816 bytes
old slot 0 0.1 alloc i 1 = ok
inspect = generation 1, count 0, run 1, room 31
old slot 1 0.2 reset 0 = ok
inspect = refused 16 BadRecord
old slot 1 0.2 fetch 0 = ok
inspect = generation 1, count 0, run 2, room 30
old slot 2 0.3 fetch 0 = ok
old slot 3 0.4 fetch 0 = ok
old slot 4 0.5 fetch 0 = ok
old slot 5 0.6 fetch 0 = ok
old slot 6 0.7 fetch 0 = ok
old slot 7 0.8 fetch 0 = ok
old slot 8 0.9 fetch 0 = ok
old slot 9 0.10 fetch 0 = ok
old slot 10 0.11 fetch 0 = ok
old slot 11 0.12 fetch 0 = ok
old slot 12 0.13 fetch 0 = ok
old slot 13 0.14 fetch 0 = ok
old slot 14 0.15 fetch 0 = ok
old slot 15 0.16 fetch 0 = ok
inspect = generation 1, count 0, run 16, room 16
window 0 = 1 17
waiting 0 = 0.2 0.3 0.4 0.5 0.6 0.7 0.8 0.9 0.10 0.11 0.12 0.13 0.14 0.15 0.16
old slot 16 0.17 fetch 0 = ok
inspect = refused 16 BadRecord
-- By the second version the window has room for it, and for a reset.
with 2:02 inspect = generation 1, count 0, run 17, room 15
window 0 = 1 18
-- A confirmation before it makes room, as far as nothing waits.
old slot 16 confirm 0 2 = ok
inspect = generation 1, count 0, run 17, room 15
old slot 17 0.17 fetch 0 = ok
inspect = generation 1, count 0, run 18, room 14
window 0 = 2 18

# An image is read byte by byte
-- Two cells, two elements, sixteen slots. Three commands are on the pages, and the fourth in the journal.
disk 41984 = blank
write 0 a5 00 02 00 49 4d 45 4d = ok
write 8 01 = ok
write 16 03 = ok
write 24 02 00 00 00 02 00 = ok
write 32 10 = ok
-- Cell 0 waits, its list going from node 0 to node 1. Cell 1 is free.
write 8192 02 01 = ok
write 8200 01 00 00 00 00 00 00 00 01 = ok
write 8232 ff ff ff ff ff ff ff ff ff ff ff ff = ok
-- The first two nodes. The other 126 are free, and each is linked to node 0.
write 12288 01 00 00 00 01 00 01 00 01 = ok
write 12304 ff ff ff ff 00 00 01 00 02 = ok
-- Element 0: base 1, an allocation and a fetch; element 1, on a page of its own: a fetch.
write 16384 01 00 00 00 00 00 00 00 02 = ok
write 16448 01 00 01 00 01 = ok
write 16480 04 = ok
write 20480 01 00 00 00 00 00 00 00 01 = ok
write 20544 04 = ok
-- Slot 3: a store by element 0.
write 41152 a5 01 05 00 00 00 00 00 03 00 00 00 00 00 00 00 03 = ok
write 41184 2a = ok
inspect = generation 1, count 3, run 1, room 15
block 0 = i 1 at 0
block 1 = none
waiting 0 =
collect 0.1 = base 0
collect 0.2 = value 42
collect 0.3 = stored
collect 1.1 = value 42
to open = generation 1, count 3, run 1, room 15
with 41152:00 inspect = generation 1, count 3, run 0, room 16
waiting 0 = 1.1 0.2
-- A reset in place of the store isn't done, since the cell is waited for; by request 2 it isn't accepted.
with 41154:09 41184:00 inspect = generation 1, count 3, run 1, room 15
collect 0.3 = stillwaiting
waiting 0 = 1.1 0.2
with 41154:09 41168:02 41184:00 inspect = refused 16 BadRecord
-- By the first version the sessions would have one page.
with 2:01 inspect = refused 12 WrongLength
with 2:01 to open = refused 21 OldVersion

# An image of the first version is read byte by byte
-- Two cells, two elements, sixteen slots. Three commands are on the pages, and the fourth in the journal.
disk 33792 = blank
write 0 a5 00 01 00 49 4d 45 4d = ok
write 8 01 = ok
write 16 03 = ok
write 24 02 00 00 00 02 00 = ok
write 32 10 = ok
-- Cell 0 waits, its list going from node 0 to node 1. Cell 1 is free.
write 8192 02 01 = ok
write 8200 01 00 00 00 00 00 00 00 01 = ok
write 8232 ff ff ff ff ff ff ff ff ff ff ff ff = ok
-- The first two nodes. The other thirty are free, and each is linked to node 0.
write 12288 01 00 00 00 01 00 01 00 01 = ok
write 12304 ff ff ff ff 00 00 01 00 02 = ok
-- Element 0: base 1, an allocation and a fetch; element 1: a fetch.
write 16384 01 00 00 00 00 00 00 00 02 = ok
write 16448 01 00 01 00 01 = ok
write 16480 04 = ok
write 17408 01 00 00 00 00 00 00 00 01 = ok
write 17472 04 = ok
-- Slot 3: a store by element 0.
write 32960 a5 01 05 00 00 00 00 00 03 00 00 00 00 00 00 00 03 = ok
write 32992 2a = ok
inspect = generation 1, count 3, run 1, room 15
block 0 = i 1 at 0
block 1 = none
waiting 0 =
collect 0.1 = base 0
collect 0.2 = value 42
collect 0.3 = stored
collect 1.1 = value 42
to open = refused 21 OldVersion
with 32960:00 inspect = generation 1, count 3, run 0, room 16
waiting 0 = 1.1 0.2
-- By the second version the sessions would have a page each.
with 2:02 inspect = refused 12 WrongLength

# A device that fails is told
image 1 1 16 = 33792 bytes
write 0 a5 = ok
-- Two header places, the area in force, and the journal are read.
fuse 0 stop = so
inspect = refused 8 Device
fuse 1 stop = so
inspect = refused 8 Device
fuse 2 stop = so
inspect = refused 8 Device
fuse 3 stop = so
inspect = refused 8 Device
fuse 4 stop = so
inspect = generation 1, count 0, run 0, room 16

# The memories of a random walk are read again as they were
memory 8 4 16 = empty
-- 600 commands drawn by lot; after the first of each seven the pages are made and read.
walk 600 from 1 reading each 7 = 600 steps agree, more than 100 accepted
