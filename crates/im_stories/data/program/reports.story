# Of a new image four lines are told
disk 450560 = 450560 bytes
format 4096 16 256 = formatted
inspect = 0
printed = 4 lines
printed 0 = version 2
printed 1 = limits 4096 16 256
printed 2 = header 0 generation 1 area 0 count 0
printed 3 = journal 0 room 256
-- Gate, area, version, IMEM; generation; count; cells, elements; slots. Then the gate of the other header.
bytes 0 16 = a5 00 02 00 49 4d 45 4d 01 00 00 00 00 00 00 00
bytes 16 16 = 00 00 00 00 00 00 00 00 00 10 00 00 10 00 00 00
bytes 32 16 = 00 01 00 00 00 00 00 00 00 00 00 00 00 00 00 00
bytes 48 16 = 00 00 00 00 00 00 00 00 00 00 00 00 00 00 00 00
bytes 4096 1 = 00

# A fetch and a store are told, and no byte is changed
disk 450560 = 450560 bytes
format 4096 16 256 = formatted
script setup / alloc x i 2 / element 1 / fetch x+0 / element 2 / store x+0 42 / = 6 lines
read = 1 blocks, 2 parts, 2 requests
serve = 0
mark = 450560 bytes
inspect = 0
printed = 12 lines
printed 0 = version 2
printed 1 = limits 4096 16 256
printed 2 = header 0 generation 1 area 0 count 0
printed 3 = journal 3 room 253
printed 4 = block 0 i 2
printed 5 = cell 0 full 42
printed 6 = element 0 base 1 kept 1
printed 7 = entry 0.1 alloc i 2 -> base 0
printed 8 = element 1 base 1 kept 1
printed 9 = entry 1.1 fetch 0 -> value 42
printed 10 = element 2 base 1 kept 1
printed 11 = entry 2.1 store 0 42 -> stored
as marked = yes

# A reset is told, and the memory after it
disk 450560 = 450560 bytes
format 4096 16 256 = formatted
script setup / alloc x i 2 / element 1 / store x 5 / store x 6 / element 0 / reset x / = 7 lines
script element 1 / fetch x / element 0 / reset x / element 1 / store x 6 / element 0 / reset x+1 / = 15 lines
read = 1 blocks, 6 parts, 7 requests
serve = 0
printed = 9 lines
printed 0 = 0.1 base 0
printed 1 = 1.1 stored
printed 2 = 1.2 clash
printed 3 = 0.2 cleared
printed 4 = 1.3 waiting
printed 5 = 0.3 stillwaiting
printed 6 = 1.4 stored
printed 7 = 0.4 noblock
printed 8 = 1.3 now value 6
bytes 434368 16 = a5 01 09 00 00 00 00 00 03 00 00 00 00 00 00 00
bytes 434384 16 = 02 00 00 00 00 00 00 00 00 00 00 00 00 00 00 00
inspect = 0
printed = 16 lines
printed 3 = journal 8 room 248
printed 4 = block 0 i 2
printed 5 = cell 0 full 6
printed 6 = element 0 base 1 kept 4
printed 7 = entry 0.1 alloc i 2 -> base 0
printed 8 = entry 0.2 reset 0 -> cleared
printed 9 = entry 0.3 reset 0 -> stillwaiting
printed 10 = entry 0.4 reset 1 -> noblock
printed 11 = element 1 base 1 kept 4
printed 12 = entry 1.1 store 0 5 -> stored
printed 13 = entry 1.2 store 0 6 -> clash
printed 14 = entry 1.3 fetch 0 -> value 6
printed 15 = entry 1.4 store 0 6 -> stored

# An image of the first version is told by that version's rules, and isn't served
-- The slots of three commands stand in its journal.
old image 4096 16 256 = 327680 bytes
write 311296 a5 01 01 = 00 00 00
write 311312 01 00 00 00 00 00 00 00 02 = 00 00 00 00 00 00 00 00 00
write 311360 a5 01 04 00 01 00 00 00 01 = 00 00 00 00 00 00 00 00 00
write 311376 01 = 00
write 311424 a5 01 05 00 02 00 00 00 02 = 00 00 00 00 00 00 00 00 00
write 311440 01 = 00
write 311456 2a = 00
mark = 327680 bytes
inspect = 0
printed = 12 lines
printed 0 = version 1
printed 1 = limits 4096 16 256
printed 2 = header 0 generation 1 area 0 count 0
printed 3 = journal 3 room 253
printed 4 = block 0 i 2
printed 5 = cell 0 full 42
printed 6 = element 0 base 1 kept 1
printed 7 = entry 0.1 alloc i 2 -> base 0
printed 8 = element 1 base 1 kept 1
printed 9 = entry 1.1 fetch 0 -> value 42
printed 10 = element 2 base 1 kept 1
printed 11 = entry 2.1 store 0 42 -> stored
count = refused 21 OldVersion
read element 1 / fetch 0 / = 0 blocks, 1 parts, 1 requests
serve = 1
printed = 1 lines
printed 0 = refused 21 OldVersion
script 1.2 fetch 0 / = 1 lines
talk = 1, 0 calls
printed = 1 lines
printed 0 = refused 21 OldVersion
as marked = yes
-- That version has no reset, and no eighth operation but a confirmation.
write 311362 09 = 04
inspect = 1
printed 0 = refused 16 BadRecord
write 311362 08 = 09
inspect = 1
printed 0 = refused 16 BadRecord

# A second store is told as a clash
disk 450560 = 450560 bytes
format 4096 16 256 = formatted
script setup / alloc x i 1 / element 1 / store x 5 / fetch x / store x 5 / fetch x / = 7 lines
read = 1 blocks, 1 parts, 4 requests
serve = 0
inspect = 0
printed = 13 lines
printed 0 = version 2
printed 1 = limits 4096 16 256
printed 2 = header 0 generation 1 area 0 count 0
printed 3 = journal 5 room 251
printed 4 = block 0 i 1
printed 5 = cell 0 clashed 5
printed 6 = element 0 base 1 kept 1
printed 7 = entry 0.1 alloc i 1 -> base 0
printed 8 = element 1 base 1 kept 4
printed 9 = entry 1.1 store 0 5 -> stored
printed 10 = entry 1.2 fetch 0 -> value 5
printed 11 = entry 1.3 store 0 5 -> clash
printed 12 = entry 1.4 fetch 0 -> clash

# A put on a full cell is told after another opening
disk 450560 = 450560 bytes
format 4096 16 256 = formatted
read setup / alloc x m 1 / element 1 / put x 1 / put x 2 / = 1 blocks, 1 parts, 2 requests
serve = 0
read element 1 / take 0 / = 0 blocks, 1 parts, 1 requests
serve = 0
inspect = 0
printed = 12 lines
printed 0 = version 2
printed 1 = limits 4096 16 256
printed 2 = header 0 generation 1 area 0 count 0
printed 3 = journal 4 room 252
printed 4 = block 0 m 1
printed 5 = cell 0 clashed 1
printed 6 = element 0 base 1 kept 1
printed 7 = entry 0.1 alloc m 1 -> base 0
printed 8 = element 1 base 1 kept 3
printed 9 = entry 1.1 put 0 1 -> stored
printed 10 = entry 1.2 put 0 2 -> clash
printed 11 = entry 1.3 take 0 -> clash

# A window is told from its base on
disk 450560 = 450560 bytes
format 4096 16 256 = formatted
script element 0 / alloc i 5000 / alloc m 0 / alloc i 1 / alloc m 2 / release 1 / release 2 / take 1 / = 8 lines
script release 1 / put 0 1 / fetch 9 / take 1 / fetch 0 / alloc m 1 / = 14 lines
repeat 52 fetch 2 / = 66 lines
script element 2 / release 9 / alloc m 0 / release 0 / reset 0 / reset 1 / reset 2 / = 73 lines
read = 0 blocks, 2 parts, 71 requests
serve = 0
inspect = 0
-- Element 0 has asked 65 times: its first eleven entries were confirmed, and the twelfth waits.
printed = 69 lines
printed 0 = version 2
printed 1 = limits 4096 16 256
printed 2 = header 0 generation 1 area 0 count 0
printed 3 = journal 72 room 184
printed 4 = block 0 i 1
printed 5 = block 1 m 1
printed 6 = cell 0 waiting 0.12
printed 7 = element 0 base 12 kept 54
printed 8 = entry 0.12 fetch 0 -> waiting
printed 9 = entry 0.13 alloc m 1 -> base 1
printed 10 = entry 0.14 fetch 2 -> nocell
printed 11 = entry 0.15 fetch 2 -> nocell
printed 61 = entry 0.65 fetch 2 -> nocell
printed 62 = element 2 base 1 kept 6
printed 63 = entry 2.1 release 9 -> noblock
printed 64 = entry 2.2 alloc m 0 -> badlength
printed 65 = entry 2.3 release 0 -> stillwaiting
printed 66 = entry 2.4 reset 0 -> stillwaiting
printed 67 = entry 2.5 reset 1 -> cleared
printed 68 = entry 2.6 reset 2 -> noblock

# Those who wait are told in their order, and a list that leads back to its first node is refused
disk 50176 = 50176 bytes
format 1 3 16 = formatted
-- The header's count is four commands.
write 16 04 00 00 00 00 00 00 00 = 00 00 00 00 00 00 00 00
-- The cell waits, in a block of one I cell, from node 0 to node 2.
write 8192 02 01 00 00 00 00 00 00 = 00 00 00 00 00 00 00 00
write 8200 01 00 00 00 00 00 00 00 = ff ff ff ff ff ff ff ff
write 8208 02 00 00 00 = ff ff ff ff
-- Node 0 is request 1 of element 1, node 1 request 1 of element 2, and node 2, the last, request 2 of element 1.
write 12288 01 00 00 00 01 00 01 00 = ff ff ff ff 00 00 00 00
write 12296 01 00 00 00 00 00 00 00 = 00 00 00 00 00 00 00 00
write 12304 02 00 00 00 02 00 01 00 = ff ff ff ff 00 00 00 00
write 12312 01 00 00 00 00 00 00 00 = 00 00 00 00 00 00 00 00
write 12320 ff ff ff ff 01 00 01 00 = ff ff ff ff 00 00 00 00
write 12328 02 00 00 00 00 00 00 00 = 00 00 00 00 00 00 00 00
-- Element 0 keeps the block that it made, elements 1 and 2 their fetches that wait.
write 16392 01 = 00
write 16448 01 00 01 00 01 00 00 00 = 00 00 00 00 00 00 00 00
write 20488 02 = 00
write 20544 04 = 00
write 20576 04 = 00
write 24584 01 = 00
write 24640 04 = 00
inspect = 0
printed = 13 lines
printed 0 = version 2
printed 1 = limits 1 3 16
printed 2 = header 0 generation 1 area 0 count 4
printed 3 = journal 0 room 16
printed 4 = block 0 i 1
printed 5 = cell 0 waiting 1.1 2.1 1.2
printed 6 = element 0 base 1 kept 1
printed 7 = entry 0.1 alloc i 1 -> base 0
printed 8 = element 1 base 1 kept 2
printed 9 = entry 1.1 fetch 0 -> waiting
printed 10 = entry 1.2 fetch 0 -> waiting
printed 11 = element 2 base 1 kept 1
printed 12 = entry 2.1 fetch 0 -> waiting
-- Now node 2 leads to node 0.
write 12320 00 00 00 00 = ff ff ff ff
inspect = 1
printed = 1 lines
printed 0 = refused 15 BadPage
told 0 = page 0 of the area in force: the list of those who wait at cell 0 leads astray

# In an image of the default sizes too those who wait are told in their order
-- The same memory. Its cells have 32 pages, its nodes four, and its windows sixteen.
disk 450560 = 450560 bytes
format 4096 16 256 = formatted
write 16 04 00 00 00 00 00 00 00 = 00 00 00 00 00 00 00 00
write 8192 02 01 00 00 00 00 00 00 = 00 00 00 00 00 00 00 00
write 8200 01 00 00 00 00 00 00 00 = ff ff ff ff ff ff ff ff
write 8208 02 00 00 00 = ff ff ff ff
write 139264 01 00 00 00 01 00 01 00 = ff ff ff ff 00 00 00 00
write 139272 01 00 00 00 00 00 00 00 = 00 00 00 00 00 00 00 00
write 139280 02 00 00 00 02 00 01 00 = ff ff ff ff 00 00 00 00
write 139288 01 00 00 00 00 00 00 00 = 00 00 00 00 00 00 00 00
write 139296 ff ff ff ff 01 00 01 00 = ff ff ff ff 00 00 00 00
write 139304 02 00 00 00 00 00 00 00 = 00 00 00 00 00 00 00 00
write 155656 01 = 00
write 155712 01 00 01 00 01 00 00 00 = 00 00 00 00 00 00 00 00
write 159752 02 = 00
write 159808 04 = 00
write 159840 04 = 00
write 163848 01 = 00
write 163904 04 = 00
count = 4
inspect = 0
printed = 13 lines
printed 0 = version 2
printed 1 = limits 4096 16 256
printed 2 = header 0 generation 1 area 0 count 4
printed 3 = journal 0 room 256
printed 4 = block 0 i 1
printed 5 = cell 0 waiting 1.1 2.1 1.2
printed 6 = element 0 base 1 kept 1
printed 7 = entry 0.1 alloc i 1 -> base 0
printed 8 = element 1 base 1 kept 2
printed 9 = entry 1.1 fetch 0 -> waiting
printed 10 = entry 1.2 fetch 0 -> waiting
printed 11 = element 2 base 1 kept 1
printed 12 = entry 2.1 fetch 0 -> waiting
-- Now node 2 leads to node 0.
write 139296 00 00 00 00 = ff ff ff ff
inspect = 1
printed = 1 lines
printed 0 = refused 15 BadPage

# A journal that has wrapped three times is told
-- Sixteen commands of each of three elements, and two more, in sixteen slots.
disk 435200 = 435200 bytes
format 4096 16 16 = formatted
script element 1 / = 1 lines
repeat 16 fetch 0 / = 17 lines
script element 2 / = 18 lines
repeat 16 fetch 0 / = 34 lines
script element 3 / = 35 lines
repeat 16 fetch 0 / = 51 lines
script element 4 / fetch 0 / fetch 0 / = 54 lines
read = 0 blocks, 4 parts, 50 requests
serve = 0
printed = 50 lines
printed 0 to 15 = 1.1 to 1.16 nocell
printed 16 to 31 = 2.1 to 2.16 nocell
printed 32 to 47 = 3.1 to 3.16 nocell
printed 48 to 49 = 4.1 to 4.2 nocell
-- The first slot has an open gate and sequence number 48.
bytes 434176 1 = a5
bytes 434184 8 = 30 00 00 00 00 00 00 00
-- Three slots were swept for the last two commands. The other thirteen are swept here: each gate is closed.
write 434368 00 = a5
write 434432 00 = a5
write 434496 00 = a5
write 434560 00 = a5
write 434624 00 = a5
write 434688 00 = a5
write 434752 00 = a5
write 434816 00 = a5
write 434880 00 = a5
write 434944 00 = a5
write 435008 00 = a5
write 435072 00 = a5
write 435136 00 = a5
inspect = 0
printed = 58 lines
printed 0 = version 2
printed 1 = limits 4096 16 16
printed 2 = header 1 generation 4 area 1 count 48
printed 3 = journal 2 room 14
printed 4 = element 1 base 1 kept 16
printed 5 = entry 1.1 fetch 0 -> nocell
printed 6 = entry 1.2 fetch 0 -> nocell
printed 7 = entry 1.3 fetch 0 -> nocell
printed 8 = entry 1.4 fetch 0 -> nocell
printed 9 = entry 1.5 fetch 0 -> nocell
printed 10 = entry 1.6 fetch 0 -> nocell
printed 11 = entry 1.7 fetch 0 -> nocell
printed 12 = entry 1.8 fetch 0 -> nocell
printed 13 = entry 1.9 fetch 0 -> nocell
printed 14 = entry 1.10 fetch 0 -> nocell
printed 15 = entry 1.11 fetch 0 -> nocell
printed 16 = entry 1.12 fetch 0 -> nocell
printed 17 = entry 1.13 fetch 0 -> nocell
printed 18 = entry 1.14 fetch 0 -> nocell
printed 19 = entry 1.15 fetch 0 -> nocell
printed 20 = entry 1.16 fetch 0 -> nocell
printed 21 = element 2 base 1 kept 16
printed 22 = entry 2.1 fetch 0 -> nocell
printed 23 = entry 2.2 fetch 0 -> nocell
printed 24 = entry 2.3 fetch 0 -> nocell
printed 25 = entry 2.4 fetch 0 -> nocell
printed 26 = entry 2.5 fetch 0 -> nocell
printed 27 = entry 2.6 fetch 0 -> nocell
printed 28 = entry 2.7 fetch 0 -> nocell
printed 29 = entry 2.8 fetch 0 -> nocell
printed 30 = entry 2.9 fetch 0 -> nocell
printed 31 = entry 2.10 fetch 0 -> nocell
printed 32 = entry 2.11 fetch 0 -> nocell
printed 33 = entry 2.12 fetch 0 -> nocell
printed 34 = entry 2.13 fetch 0 -> nocell
printed 35 = entry 2.14 fetch 0 -> nocell
printed 36 = entry 2.15 fetch 0 -> nocell
printed 37 = entry 2.16 fetch 0 -> nocell
printed 38 = element 3 base 1 kept 16
printed 39 = entry 3.1 fetch 0 -> nocell
printed 40 = entry 3.2 fetch 0 -> nocell
printed 41 = entry 3.3 fetch 0 -> nocell
printed 42 = entry 3.4 fetch 0 -> nocell
printed 43 = entry 3.5 fetch 0 -> nocell
printed 44 = entry 3.6 fetch 0 -> nocell
printed 45 = entry 3.7 fetch 0 -> nocell
printed 46 = entry 3.8 fetch 0 -> nocell
printed 47 = entry 3.9 fetch 0 -> nocell
printed 48 = entry 3.10 fetch 0 -> nocell
printed 49 = entry 3.11 fetch 0 -> nocell
printed 50 = entry 3.12 fetch 0 -> nocell
printed 51 = entry 3.13 fetch 0 -> nocell
printed 52 = entry 3.14 fetch 0 -> nocell
printed 53 = entry 3.15 fetch 0 -> nocell
printed 54 = entry 3.16 fetch 0 -> nocell
printed 55 = element 4 base 1 kept 2
printed 56 = entry 4.1 fetch 0 -> nocell
printed 57 = entry 4.2 fetch 0 -> nocell

# A header that is closed, or isn't spelled as it should be, is refused
-- The gate.
disk 33792 = 33792 bytes
format 1 1 16 = formatted
write 0 00 = a5
inspect = 1
printed = 1 lines
printed 0 = refused 13 NoHeader
told 0 = neither header is open: it is no image, or one whose making was never finished
-- A gate of the journal that stands open, a count, and a byte of the other header: no making leaves these.
write 32768 a5 = 00
inspect = 1
told 0 = neither header is open: it is no image, or one that is damaged or was never finished
write 32768 00 = a5
write 16 01 = 00
inspect = 1
told 0 = neither header is open: it is no image, or one that is damaged or was never finished
write 16 00 = 01
write 4097 01 = 00
inspect = 1
told 0 = neither header is open: it is no image, or one that is damaged or was never finished
write 4097 00 = 01
inspect = 1
told 0 = neither header is open: it is no image, or one whose making was never finished
-- A file of zeros.
disk 33792 = 33792 bytes
inspect = 1
printed 0 = refused 13 NoHeader
told 0 = neither header is open: it is no image, or one whose making was never finished
-- The version.
disk 33792 = 33792 bytes
format 1 1 16 = formatted
write 2 09 = 02
inspect = 1
printed = 1 lines
printed 0 = refused 14 BadHeader
told 0 = header 0: its version is 9, where 2 and 1 are read here
-- A byte that has to be zero.
disk 33792 = 33792 bytes
format 1 1 16 = formatted
write 36 01 = 00
inspect = 1
printed = 1 lines
printed 0 = refused 14 BadHeader
told 0 = header 0: a byte that has to be 0 isn't
write 36 00 = 01
-- The other area.
write 1 01 = 00
inspect = 1
printed = 1 lines
printed 0 = refused 14 BadHeader
told 0 = header 0: its area is 1
write 1 00 = 01
-- No generation, and one past the last.
write 8 00 = 01
inspect = 1
printed = 1 lines
printed 0 = refused 14 BadHeader
told 0 = header 0: its generation is 0
write 8 01 = 00
write 15 40 = 00
inspect = 1
printed = 1 lines
printed 0 = refused 14 BadHeader
told 0 = header 0: its generation is 4611686018427387905
write 15 00 = 40
-- No cell, and a slot too few.
write 24 00 = 01
inspect = 1
printed = 1 lines
printed 0 = refused 14 BadHeader
told 0 = header 0: its limits are 0 cells, 1 elements, 16 slots
write 24 01 = 00
write 32 0f = 10
inspect = 1
printed = 1 lines
printed 0 = refused 14 BadHeader
told 0 = header 0: its limits are 1 cells, 1 elements, 15 slots
write 32 10 = 0f

# A header of other sizes is refused
-- 17 slots take a longer file.
disk 33792 = 33792 bytes
format 1 1 16 = formatted
write 32 11 = 10
inspect = 1
printed = 1 lines
printed 0 = refused 12 WrongLength
told 0 = it has 33792 bytes, where its header wants 33856
-- The same pages have room for 2 cells, but no record of the second.
disk 33792 = 33792 bytes
format 1 1 16 = formatted
write 24 02 = 01
inspect = 1
printed = 1 lines
printed 0 = refused 15 BadPage
told 0 = page 0 of the area in force: the record of cell 1
write 24 01 = 02
-- 2 elements have a page each.
write 28 02 = 01
inspect = 1
printed = 1 lines
printed 0 = refused 12 WrongLength
told 0 = it has 33792 bytes, where its header wants 41984
write 28 01 = 02
-- 129 cells have two pages.
write 24 81 = 01
inspect = 1
printed = 1 lines
printed 0 = refused 12 WrongLength
told 0 = it has 33792 bytes, where its header wants 41984
write 24 01 = 81

# A block past the last cell, and a window of too many entries, are refused
disk 33792 = 33792 bytes
format 1 1 16 = formatted
-- Cell 0 is empty, in a block of two I cells.
write 8192 01 01 00 00 00 00 00 00 = 00 00 00 00 00 00 00 00
write 8200 02 00 00 00 = ff ff ff ff
inspect = 1
printed = 1 lines
printed 0 = refused 15 BadPage
told 0 = page 0 of the area in force: the record of cell 0
-- A block of one I cell is a good one.
write 8200 01 00 00 00 = 02 00 00 00
inspect = 0
printed = 5 lines
printed 0 = version 2
printed 1 = limits 1 1 16
printed 2 = header 0 generation 1 area 0 count 0
printed 3 = journal 0 room 16
printed 4 = block 0 i 1
-- Seventeen entries.
disk 33792 = 33792 bytes
format 1 1 16 = formatted
write 16392 11 = 00
inspect = 1
printed = 1 lines
printed 0 = refused 15 BadPage
told 0 = page 2 of the area in force: the record of the window of element 0
-- Sixty-five, more than there are places, of the second of two elements.
disk 41984 = 41984 bytes
format 1 2 16 = formatted
write 20488 41 = 00
inspect = 1
printed = 1 lines
printed 0 = refused 15 BadPage
told 0 = page 3 of the area in force: the record of the window of element 1

# A free cell's link to another hole may be any address, its own too
disk 33792 = 33792 bytes
format 1 1 16 = formatted
write 8200 00 00 00 00 = ff ff ff ff
inspect = 0
printed = 4 lines
printed 0 = version 2
printed 1 = limits 1 1 16
printed 2 = header 0 generation 1 area 0 count 0
printed 3 = journal 0 room 16

# A header may have any generation and any count, and what stands behind it isn't read
-- The byte behind it.
disk 33792 = 33792 bytes
format 1 1 16 = formatted
write 64 01 = 00
inspect = 0
printed = 4 lines
printed 0 = version 2
printed 1 = limits 1 1 16
printed 2 = header 0 generation 1 area 0 count 0
printed 3 = journal 0 room 16
-- Five commands, none of them in the journal.
write 16 05 = 00
inspect = 0
printed = 4 lines
printed 0 = version 2
printed 1 = limits 1 1 16
printed 2 = header 0 generation 1 area 0 count 5
printed 3 = journal 0 room 16
-- The second generation.
disk 33792 = 33792 bytes
format 1 1 16 = formatted
write 8 02 = 01
write 64 01 = 00
inspect = 0
printed = 4 lines
printed 0 = version 2
printed 1 = limits 1 1 16
printed 2 = header 0 generation 2 area 0 count 0
printed 3 = journal 0 room 16
-- The last count that there is leaves no room.
disk 33792 = 33792 bytes
format 1 1 16 = formatted
write 23 40 = 00
inspect = 0
printed = 4 lines
printed 0 = version 2
printed 1 = limits 1 1 16
printed 2 = header 0 generation 1 area 0 count 4611686018427387904
printed 3 = journal 0 room 0

# An open slot behind the run has to be of a command that the pages have
-- Slot 5 says that it has command 5, and the pages have none.
disk 33792 = 33792 bytes
format 1 1 16 = formatted
write 33088 a5 = 00
write 33096 05 = 00
inspect = 1
printed = 1 lines
printed 0 = refused 16 BadRecord
told 0 = slot 5 of the journal: behind the run its command is 5, which isn't below 0
-- Where the pages have 21 commands it is an old one, and stands where the next would.
disk 33792 = 33792 bytes
format 1 1 16 = formatted
write 33088 a5 = 00
write 33096 05 = 00
write 16 15 = 00
inspect = 0
printed = 4 lines
printed 0 = version 2
printed 1 = limits 1 1 16
printed 2 = header 0 generation 1 area 0 count 21
printed 3 = journal 0 room 0
-- Slot 7 is closed, and says that it has command 200: what stands behind an open gate may be no later one, whatever its
-- own gate.
write 33224 c8 = 00
inspect = 1
printed = 1 lines
printed 0 = refused 16 BadRecord
told 0 = slot 7 of the journal: behind the run its command is 200, which isn't below 21

# A count that was changed is believed, and warned of
disk 33792 = 33792 bytes
format 1 1 16 = formatted
read element 0 / alloc i 1 / store 0 42 / fetch 0 / = 0 blocks, 1 parts, 3 requests
serve = 0
inspect = 0
told = 0 lines
write 20 01 = 00
inspect = 0
printed = 4 lines
printed 2 = header 0 generation 1 area 0 count 4294967296
printed 3 = journal 0 room 0
told = 1 lines
told 0 = slot 0 of the journal has command 0, where none below 4294967280 is left: the header in force was changed, or a later one was lost
-- The least that may stand there, and one below it: 16 commands behind it fill the ring.
write 20 00 = 01
write 16 10 = 00
inspect = 0
told = 0 lines
write 16 11 = 10
inspect = 0
told 0 = slot 0 of the journal has command 0, where none below 1 is left: the header in force was changed, or a later one was lost
-- A slot that counts none follows in a group, and isn't looked at.
write 32769 00 = 01
inspect = 0
told = 0 lines

# A group of commands, and what may be wrong with it
disk 33792 = 33792 bytes
format 1 1 16 = formatted
read element 0 / alloc i 1 / store 0 42 / fetch 0 / = 0 blocks, 1 parts, 3 requests
serve = 0
-- As one group of three they differ in bytes 0 and 1 of their slots alone: the first counts them, and only its gate is open.
write 32769 03 = 01
write 32832 00 00 = a5 01
write 32896 00 00 = a5 01
inspect = 0
printed 3 = journal 3 room 13
-- The gate of one that follows isn't looked at.
write 32832 a5 = 00
inspect = 0
printed 3 = journal 3 room 13
write 32832 00 = a5
-- Until the gate of the first is open nothing is there.
write 32768 00 = a5
inspect = 0
printed 3 = journal 0 room 16
write 32768 a5 = 00
-- A group of none, one of 17, and one of four, whose last slot is all zero.
write 32769 00 = 03
inspect = 1
printed 0 = refused 16 BadRecord
told 0 = slot 0 of the journal: command 0 leads a group of 0, where there may be 1 to 16
write 32769 11 = 00
inspect = 1
printed 0 = refused 16 BadRecord
told 0 = slot 0 of the journal: command 0 leads a group of 17, where there may be 1 to 16
write 32769 04 = 11
inspect = 1
printed 0 = refused 16 BadRecord
told 0 = slot 3 of the journal: command 3 follows in a group here, and the slot has command 0
write 32769 03 = 04
-- The last of the three leads a group of one, then has no operation, then another number than its element's next.
write 32897 01 = 00
inspect = 1
printed 0 = refused 16 BadRecord
told 0 = slot 2 of the journal: command 2 follows in a group here, and the slot leads one of 1
write 32897 00 = 01
write 32898 0a = 04
inspect = 1
printed 0 = refused 16 BadRecord
told 0 = slot 2 of the journal: the bytes of command 2 spell none
write 32898 04 = 0a
write 32912 04 = 03
inspect = 1
printed 0 = refused 16 BadRecord
told 0 = slot 2 of the journal: the memory before command 2 doesn't accept it
write 32912 03 = 04
inspect = 0
printed 3 = journal 3 room 13
-- The first alone, and a group of 16 from slot 1 on, where the ring has 15.
write 32769 01 = 03
write 32832 a5 10 = 00 00
inspect = 1
printed 0 = refused 16 BadRecord
told 0 = slot 1 of the journal: the group of 16 that command 1 leads goes too far

# An image of another length is refused
disk 450560 = 450560 bytes
format 4096 16 256 = formatted
cut 450559 = 450559 bytes
inspect = 1
printed = 1 lines
printed 0 = refused 12 WrongLength
told 0 = it has 450559 bytes, where its header wants 450560
cut 100 = 100 bytes
inspect = 1
printed = 1 lines
printed 0 = refused 12 WrongLength
told 0 = it has 100 bytes, where its two headers alone take 8192
-- A byte more than the least image has, which the header of that image stands in.
disk 33793 = 33793 bytes
format 1 1 16 = refused 12 WrongLength
inspect = 1
printed = 1 lines
printed 0 = refused 13 NoHeader
write 0 a5 00 02 00 49 4d 45 4d = 00 00 00 00 00 00 00 00
write 8 01 00 00 00 00 00 00 00 = 00 00 00 00 00 00 00 00
write 24 01 00 00 00 01 00 00 00 = 00 00 00 00 00 00 00 00
write 32 10 00 00 00 00 00 00 00 = 00 00 00 00 00 00 00 00
inspect = 1
printed = 1 lines
printed 0 = refused 12 WrongLength
told 0 = it has 33793 bytes, where its header wants 33792

# A command with no such operation is refused
disk 450560 = 450560 bytes
format 4096 16 256 = formatted
script setup / alloc x i 2 / element 1 / fetch x+0 / element 2 / store x+0 42 / = 6 lines
read = 1 blocks, 2 parts, 2 requests
serve = 0
-- The fetch stands in slot 1.
write 434242 0a = 04
inspect = 1
printed = 1 lines
printed 0 = refused 16 BadRecord
told 0 = slot 1 of the journal: the bytes of command 1 spell none

# A disk that fails is refused
disk 450560 = 450560 bytes
format 4096 16 256 = formatted
inspect 1 calls = 1
printed = 1 lines
printed 0 = refused 8 Device

# Where an image is damaged is told beside the output
-- Two headers of one generation.
disk 33792 = 33792 bytes
format 1 1 16 = formatted
write 4096 a5 01 02 00 49 4d 45 4d = 00 00 00 00 00 00 00 00
write 4104 01 = 00
inspect = 1
printed 0 = refused 14 BadHeader
told 0 = headers 0 and 1 are both open with generation 1
-- Header 1 alone in force, without its letters, and with a count past the last.
write 4104 02 = 01
write 4100 48 = 49
inspect = 1
printed 0 = refused 14 BadHeader
told 0 = header 1: the letters IMEM are missing
write 4100 49 = 48
write 4112 01 00 00 00 00 00 00 40 = 00 00 00 00 00 00 00 00
inspect = 1
printed 0 = refused 14 BadHeader
told 0 = header 1: its count is 4611686018427387905
-- A byte behind the cell's record, and a byte behind the nodes'.
disk 33792 = 33792 bytes
format 1 1 16 = formatted
write 8224 01 = 00
inspect = 1
printed 0 = refused 15 BadPage
told 0 = page 0 of the area in force: a byte behind the last record isn't 0
write 8224 00 = 01
write 13312 01 = 00
inspect = 1
printed 0 = refused 15 BadPage
told 0 = page 1 of the area in force: a byte behind the last record isn't 0
write 13312 00 = 01
-- A node that leads past the last.
write 12304 40 00 00 00 = ff ff ff ff
inspect = 1
printed 0 = refused 15 BadPage
told 0 = page 1 of the area in force: the record of waiter node 1
-- Two cells of a block of two, the second of which says that it is a block of its own. The 17th request finds the journal
-- full, so area 1 is in force, whose first page begins at 20480.
disk 33792 = 33792 bytes
format 2 1 16 = formatted
read element 0 / alloc i 2 / fetch 9 / fetch 9 / fetch 9 / fetch 9 / fetch 9 / fetch 9 / fetch 9 / fetch 9 / fetch 9 / fetch 9 / fetch 9 / fetch 9 / fetch 9 / fetch 9 / fetch 9 / fetch 9 / = 0 blocks, 1 parts, 17 requests
serve = 0
write 20516 01 = 00
write 20520 01 = 02
inspect = 1
printed 0 = refused 15 BadPage
told 0 = page 0 of the area in force: cell 1 isn't of the block in which it lies
-- A window whose second entry was answered, while the cell still has it on its list.
disk 33792 = 33792 bytes
format 1 1 16 = formatted
read element 0 / alloc i 1 / fetch 0 / fetch 9 / fetch 9 / fetch 9 / fetch 9 / fetch 9 / fetch 9 / fetch 9 / fetch 9 / fetch 9 / fetch 9 / fetch 9 / fetch 9 / fetch 9 / fetch 9 / fetch 9 / = 0 blocks, 1 parts, 17 requests
serve = 0
write 28770 07 = 00
inspect = 1
printed 0 = refused 15 BadPage
told 0 = the area in force: those who wait at its cells aren't those who wait by its windows
disk 33792 = 33792 bytes
format 2 1 16 = formatted
read element 0 / alloc i 2 / = 0 blocks, 1 parts, 1 requests
serve = 0
-- A command that the memory before it doesn't accept: element 0 asks for number 2 first.
write 32784 02 = 01
inspect = 1
printed 0 = refused 16 BadRecord
told 0 = slot 0 of the journal: the memory before command 0 doesn't accept it
serve = 1
told 0 = slot 0 of the journal: the memory before command 0 doesn't accept it

# What an image holds is told in numbers
-- 4,096 cells stand on 32 pages, the 1,024 nodes for those who wait on 4, and each of the 16 windows on one.
disk 450560 = 450560 bytes
format 4096 16 256 = formatted
stat = 0
printed = 11 lines
printed 0 = version 2
printed 1 = limits 4096 16 256
printed 2 = header 0 generation 1 area 0 count 0
printed 3 = journal 0 room 256 stale 0
printed 4 = count 0
printed 5 = next area 1 pages 52
printed 6 = i blocks 0 empty 0 waiting 0 full 0 clashed 0
printed 7 = m blocks 0 empty 0 waiting 0 full 0 clashed 0
printed 8 = free 4096 holes 1 longest 4096
printed 9 = waiting 0 longest 0 at 0
printed 10 = windows 0 kept 0 full 0
-- Block a has the cells 0 to 3, b 4 to 6, c 7 and 8, and d 9. Once c is released there are two holes.
script setup / alloc a i 4 / alloc b m 3 / alloc c i 2 / alloc d m 1 / = 5 lines
script element 1 / fetch a / fetch a+1 / store a+2 5 / store a+2 6 / store a+3 9 / = 11 lines
script element 2 / fetch a+1 / fetch a+1 / put b 7 / take b+1 / put d 1 / put d 2 / = 18 lines
script element 0 / release c / = 20 lines
read = 4 blocks, 3 parts, 12 requests
serve = 0
mark = 450560 bytes
stat = 0
printed = 11 lines
printed 2 = header 0 generation 1 area 0 count 0
printed 3 = journal 16 room 240 stale 0
printed 4 = count 16
printed 5 = next area 1 pages 52
printed 6 = i blocks 1 empty 0 waiting 2 full 1 clashed 1
printed 7 = m blocks 2 empty 1 waiting 1 full 1 clashed 1
printed 8 = free 4088 holes 2 longest 4086
printed 9 = waiting 5 longest 3 at 1
printed 10 = windows 3 kept 16 full 0
as marked = yes

# The lines of a report that a filter names are told alone
disk 450560 = 450560 bytes
format 4096 16 256 = formatted
script setup / alloc a i 4 / alloc b m 3 / element 1 / fetch a / fetch a+1 / store a+2 5 / = 7 lines
script element 2 / fetch a+1 / put b 7 / take b+1 / = 11 lines
read = 2 blocks, 2 parts, 6 requests
serve = 0
inspect cells 1 4 = 0
printed = 3 lines
printed 0 = cell 1 waiting 1.2 2.1
printed 1 = cell 2 full 5
printed 2 = cell 4 full 7
inspect cells 4 4 = 0
printed = 1 lines
printed 0 = cell 4 full 7
inspect cells 6 4294967295 = 0
printed = 0 lines
inspect waiting = 0
printed = 3 lines
printed 0 = cell 0 waiting 1.1
printed 1 = cell 1 waiting 1.2 2.1
printed 2 = cell 5 waiting 2.3
inspect cells 1 4 waiting = 0
printed = 1 lines
printed 0 = cell 1 waiting 1.2 2.1
inspect element 2 = 0
printed = 4 lines
printed 0 = element 2 base 1 kept 3
printed 1 = entry 2.1 fetch 1 -> waiting
printed 2 = entry 2.2 put 4 7 -> stored
printed 3 = entry 2.3 take 5 -> waiting
inspect waiting element 1 = 0
printed = 7 lines
printed 0 = cell 0 waiting 1.1
printed 3 = element 1 base 1 kept 3
printed 6 = entry 1.3 store 2 5 -> stored
-- An element that has asked nothing has no lines, and one that isn't there hasn't any either.
inspect element 3 = 0
printed = 0 lines
inspect element 65536 = 0
printed = 0 lines

# A slot whose command is in the area already is stale
disk 33792 = 33792 bytes
format 1 1 16 = formatted
write 16 05 = 00
-- The slot of command 4 stands open behind eleven slots with room, and four.
write 33024 a5 01 04 00 00 00 00 00 04 = 00 00 00 00 00 00 00 00 00
stat = 0
printed 2 = header 0 generation 1 area 0 count 5
printed 3 = journal 0 room 15 stale 1
printed 4 = count 5
printed 5 = next area 1 pages 3

# Numbers of an image of the first version are told, and of a damaged one its fault
old image 4096 16 256 = 327680 bytes
stat = 0
printed = 10 lines
printed 0 = version 1
printed 3 = journal 0 room 256 stale 0
printed 4 = count 0
printed 5 = i blocks 0 empty 0 waiting 0 full 0 clashed 0
write 0 00 = a5
stat = 1
printed = 1 lines
printed 0 = refused 13 NoHeader
stat json = 1
printed = 1 lines
printed 0 = refused 13 NoHeader
inspect waiting = 1
printed 0 = refused 13 NoHeader
