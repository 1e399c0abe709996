# The first fault of a served image is told
-- Each line with bytes at their places opens a copy of the closed file in which they stand.
format 4096 16 256 = formatted
0.1 alloc i 2 = base 0
1.1 fetch 0 = waiting
2.1 store 0 42 = stored
close = closed
with 0:a5 = count 3 room 253
-- The gate of the header, its version, and an operation that there isn't, of the second command.
with 0:00 = refused 13 NoHeader
with 2:09 = refused 14 BadHeader
with 434242:0a = refused 16 BadRecord
-- A reset in place of the fetch: the store finds the cell empty.
with 434242:09 = count 3 room 253

# The memory of an area is opened, and serves on
-- The pages of a memory with three readers are put into the area in force of a new image, and a count of four.
format 4096 16 256 = formatted
0.1 alloc i 1 = base 0
1.1 fetch 0 = waiting
2.1 fetch 0 = waiting
1.2 fetch 0 = waiting
pages = 52
format 4096 16 256 = formatted
close = closed
damage pages at 8192 = done
damage 16:04 = done
open = opened
count = 4
room = 256
waiting 0 = 1.1 2.1 1.2
collect 0.1 = base 0
collect 1.1 = waiting
collect 2.1 = waiting
collect 1.2 = waiting
1.2 fetch 0 = waiting
3.1 store 0 7 = stored
close = closed
open = opened
count = 5
room = 255
collect 1.1 = value 7
collect 2.1 = value 7
collect 1.2 = value 7

# A list that leads back to its first node is a bad page
format 4096 16 256 = formatted
0.1 alloc i 1 = base 0
1.1 fetch 0 = waiting
2.1 fetch 0 = waiting
1.2 fetch 0 = waiting
pages = 52
format 4096 16 256 = formatted
close = closed
damage pages at 8192 = done
damage 16:04 = done
with = count 4 room 256
-- The first and the last node of cell 0 are 0 and 2, and the last leads to none. Nodes stand behind 32 pages of cells.
bytes 8204 4 = 00 00 00 00
bytes 8208 4 = 02 00 00 00
bytes 139296 4 = ff ff ff ff
with 139296:00 139297:00 139298:00 139299:00 = refused 15 BadPage

# A list that leads back to its first node is a bad page of the area that a checkpoint brought into force
format 4096 16 256 = formatted
0.1 alloc i 1 = base 0
1.1 fetch 0 = waiting
2.1 fetch 0 = waiting
1.2 fetch 0 = waiting
58 turns = began, page 0..51, synced, in force, swept x2, idle; room 252 x55, 255, 256 x2
close = closed
bytes 4096 2 = a5 01
with = count 4 room 256
-- Area 1 stands behind the 52 pages of area 0. The first and the last node of cell 0 are 0 and 2, and the last leads to
-- none.
bytes 221196 4 = 00 00 00 00
bytes 221200 4 = 02 00 00 00
bytes 352288 4 = ff ff ff ff
with 352288:00 352289:00 352290:00 352291:00 = refused 15 BadPage
-- The same bytes of area 0, which isn't in force any more.
with 139296:00 139297:00 139298:00 139299:00 = count 4 room 256

# A damaged header is told
format 1 1 16 = formatted
close = closed
-- No open header, the other header's area, generation 0, and one past the last generation.
with 0:00 = refused 13 NoHeader
with 1:01 = refused 14 BadHeader
with 8:00 = refused 14 BadHeader
with 15:40 = refused 14 BadHeader
-- No cells, 15 slots, a byte behind the slots, version 9, and no version.
with 24:00 = refused 14 BadHeader
with 32:0f = refused 14 BadHeader
with 36:01 = refused 14 BadHeader
with 2:09 = refused 14 BadHeader
with 2:00 = refused 14 BadHeader
-- One generation twice, and a later header that isn't spelled.
with 4096:a5 4104:01 = refused 14 BadHeader
with 4096:a5 4104:02 = refused 14 BadHeader

# A sound header of the first version is told before the length, the pages and the journal are looked at
format 1 1 16 = formatted
close = closed
with 2:01 = refused 21 OldVersion
-- A slot more than the file has, a cell that isn't spelled, and a slot before its time.
with 2:01 32:11 = refused 21 OldVersion
with 2:01 8192:07 = refused 21 OldVersion
with 2:01 33088:a5 33096:05 = refused 21 OldVersion
-- No gate, another area, no generation, a great one; and 65,537 cells, which only the second version may have.
with 2:01 0:00 = refused 13 NoHeader
with 2:01 1:01 = refused 14 BadHeader
with 2:01 8:00 = refused 14 BadHeader
with 2:01 15:40 = refused 14 BadHeader
with 2:01 26:01 = refused 14 BadHeader
-- One generation twice; and the other header in force, of either version.
with 2:01 4096:a5 4104:01 = refused 14 BadHeader
with 2:01 4096:a5 4097:01 4098:02 4100:49 4101:4d 4102:45 4103:4d 4104:02 4120:01 4124:01 4128:10 = refused 15 BadPage
with 4096:a5 4097:01 4098:01 4100:49 4101:4d 4102:45 4103:4d 4104:02 4120:01 4124:01 4128:10 = refused 21 OldVersion
length 8191 = refused 12 WrongLength

# An image of the first version isn't opened, and nothing is written to it
old image 4096 16 256 = 327680 bytes
bytes 0 8 = a5 00 01 00 49 4d 45 4d
open = refused 21 OldVersion
-- A sync and the two headers.
calls = 3
bytes 0 8 = a5 00 01 00 49 4d 45 4d
bytes 4096 1 = 00
length 312320 = refused 21 OldVersion
length 450560 = refused 21 OldVersion

# Bytes beside the header in force do not count
format 1 1 16 = formatted
close = closed
with = count 0 room 16
-- Another generation, a byte behind the header, five commands, the last count, and the other header's gate.
with 8:02 = count 0 room 16
with 64:01 = count 0 room 16
with 16:05 = count 5 room 16
with 23:40 = count 4611686018427387904 room 0
with 4096:a5 = count 0 room 16

# A damaged area is told
format 1 1 16 = formatted
close = closed
-- Sizes that are not those of the file: 129 cells, 17 slots, two elements, two cells.
with 24:81 = refused 12 WrongLength
with 32:11 = refused 12 WrongLength
with 28:02 = refused 12 WrongLength
with 24:02 = refused 15 BadPage
-- A hole that leads to itself, a block past the last cell, 17 entries, and the area that isn't in force.
with 8200:00 8201:00 8202:00 8203:00 = count 0 room 16
with 8192:01 8193:01 8196:00 8200:02 8201:00 8202:00 8203:00 = refused 15 BadPage
with 16392:11 = refused 15 BadPage
with 20480:01 = count 0 room 16

# A hole that leads to itself shows the empty memory
-- The link of a free cell may be any address. The first cell is given out as ever.
format 1 1 16 = formatted
close = closed
damage 8200:00 8201:00 8202:00 8203:00 = done
open = opened
count = 0
room = 16
cell 0 = free
window 0 = 1 1
0.1 alloc i 1 = base 0
0.2 alloc i 1 = nospace

# A damaged journal is told
format 1 1 16 = formatted
close = closed
-- A slot before its time; with a later count it is stale at once; then a slot behind it that isn't stale.
with 33088:a5 33096:05 = refused 16 BadRecord
with 33088:a5 33096:05 16:15 = count 21 room 0
with 33088:a5 33096:05 16:15 33224:c8 = refused 16 BadRecord

# Each byte of a header counts
-- What an opening comes to where any one of these bytes is 0, 1 or 255.
format 1 1 16 = formatted
close = closed
-- The gate.
each 0 to 0 as 00 01 ff = refused 13 NoHeader, refused 13 NoHeader, refused 13 NoHeader
-- The area, the version, and the letters IMEM.
each 1 to 1 as 00 01 ff = count 0 room 16, refused 14 BadHeader, refused 14 BadHeader
each 2 to 2 as 00 01 02 ff = refused 14 BadHeader, refused 21 OldVersion, count 0 room 16, refused 14 BadHeader
each 3 to 3 as 00 01 ff = count 0 room 16, refused 14 BadHeader, refused 14 BadHeader
each 4 to 7 as 00 01 ff = refused 14 BadHeader, refused 14 BadHeader, refused 14 BadHeader
-- The generation, and the count.
each 8 to 8 as 00 01 ff = refused 14 BadHeader, count 0 room 16, count 0 room 16
each 9 to 14 as 00 01 ff = count 0 room 16, count 0 room 16, count 0 room 16
each 15 to 15 as 00 01 ff = count 0 room 16, count 0 room 16, refused 14 BadHeader
each 16 to 16 as 00 01 ff = count 0 room 16, count 1 room 16, count 255 room 16
each 17 to 17 as 00 01 ff = count 0 room 16, count 256 room 16, count 65280 room 16
each 18 to 18 as 00 01 ff = count 0 room 16, count 65536 room 16, count 16711680 room 16
each 19 to 19 as 00 01 ff = count 0 room 16, count 16777216 room 16, count 4278190080 room 16
each 20 to 20 as 00 01 ff = count 0 room 16, count 4294967296 room 16, count 1095216660480 room 16
each 21 to 21 as 00 01 ff = count 0 room 16, count 1099511627776 room 16, count 280375465082880 room 16
each 22 to 22 as 00 01 ff = count 0 room 16, count 281474976710656 room 16, count 71776119061217280 room 16
each 23 to 23 as 00 01 ff = count 0 room 16, count 72057594037927936 room 16, refused 14 BadHeader
-- The cells, the elements, and the slots.
each 24 to 24 as 00 01 ff = refused 14 BadHeader, count 0 room 16, refused 12 WrongLength
each 25 to 25 as 00 01 ff = count 0 room 16, refused 12 WrongLength, refused 12 WrongLength
each 26 to 26 as 00 01 ff = count 0 room 16, refused 12 WrongLength, refused 14 BadHeader
each 27 to 27 as 00 01 ff = count 0 room 16, refused 14 BadHeader, refused 14 BadHeader
each 28 to 28 as 00 01 ff = refused 14 BadHeader, count 0 room 16, refused 14 BadHeader
each 29 to 31 as 00 01 ff = count 0 room 16, refused 14 BadHeader, refused 14 BadHeader
each 32 to 32 as 00 01 ff = refused 14 BadHeader, refused 14 BadHeader, refused 12 WrongLength
each 33 to 33 as 00 01 ff = count 0 room 16, refused 12 WrongLength, refused 14 BadHeader
-- What is zero, and what isn't read.
each 34 to 63 as 00 01 ff = count 0 room 16, refused 14 BadHeader, refused 14 BadHeader
each 64 to 69 as 00 01 ff = count 0 room 16, count 0 room 16, count 0 room 16
each 4096 to 4159 as 00 01 ff = count 0 room 16, count 0 room 16, count 0 room 16
-- The values where the answer changes, and those beside them.
each 0 to 0 as a4 a5 a6 = refused 13 NoHeader, count 0 room 16, refused 13 NoHeader
each 4 to 4 as 48 49 4a = refused 14 BadHeader, count 0 room 16, refused 14 BadHeader
each 5 to 5 as 4c 4d 4e = refused 14 BadHeader, count 0 room 16, refused 14 BadHeader
each 6 to 6 as 44 45 46 = refused 14 BadHeader, count 0 room 16, refused 14 BadHeader
each 7 to 7 as 4c 4d 4e = refused 14 BadHeader, count 0 room 16, refused 14 BadHeader
each 15 to 15 as 3f 40 = count 0 room 16, refused 14 BadHeader
each 23 to 23 as 3f 40 41 = count 4539628424389459968 room 16, count 4611686018427387904 room 0, refused 14 BadHeader
each 2 to 2 as 03 = refused 14 BadHeader
each 24 to 24 as 80 81 = refused 15 BadPage, refused 12 WrongLength
each 26 to 26 as 0f 10 = refused 12 WrongLength, refused 14 BadHeader
each 28 to 28 as 02 40 = refused 12 WrongLength, refused 12 WrongLength
each 28 to 28 as 41 = refused 14 BadHeader
each 32 to 32 as 0f 10 11 = refused 14 BadHeader, count 0 room 16, refused 12 WrongLength
each 33 to 33 as 0f 10 = refused 12 WrongLength, refused 14 BadHeader

# Each byte of a slot counts
-- The slot of an allocation of one cell by request 0.1, where any one of its bytes is 0, 1 or 255.
format 1 1 16 = formatted
0.1 alloc i 1 = base 0
close = closed
-- With its gate closed there is no command.
each 32768 to 32768 as 00 01 ff = count 0 room 16, count 0 room 16, count 0 room 16
-- The group, the code, and a zero.
each 32769 to 32769 as 00 01 ff = refused 16 BadRecord, count 1 room 15, refused 16 BadRecord
each 32770 to 32770 as 00 01 ff = refused 16 BadRecord, count 1 room 15, refused 16 BadRecord
each 32771 to 32771 as 00 01 ff = count 1 room 15, refused 16 BadRecord, refused 16 BadRecord
-- The element, and zeros; the sequence number; the request.
each 32772 to 32775 as 00 01 ff = count 1 room 15, refused 16 BadRecord, refused 16 BadRecord
each 32776 to 32783 as 00 01 ff = count 1 room 15, refused 16 BadRecord, refused 16 BadRecord
each 32784 to 32784 as 00 01 ff = refused 16 BadRecord, count 1 room 15, refused 16 BadRecord
each 32785 to 32791 as 00 01 ff = count 1 room 15, refused 16 BadRecord, refused 16 BadRecord
-- Any length of the block will do.
each 32792 to 32795 as 00 01 ff = count 1 room 15, count 1 room 15, count 1 room 15
-- What is zero.
each 32796 to 32831 as 00 01 ff = count 1 room 15, refused 16 BadRecord, refused 16 BadRecord

# A file of zeros has no header
-- A copy of no file is all zeros.
in each length 0 to 8191 = refused 12 WrongLength 0..8191
in each length 8192 to 8199 = refused 13 NoHeader 8192..8199

# An image of another length is refused
-- The least image, cut or with zeros behind it.
format 1 1 16 = formatted
close = closed
length 33792 = count 0 room 16
length 0 = refused 12 WrongLength
length 1 = refused 12 WrongLength
length 63 = refused 12 WrongLength
length 64 = refused 12 WrongLength
length 100 = refused 12 WrongLength
length 4095 = refused 12 WrongLength
length 4096 = refused 12 WrongLength
length 8191 = refused 12 WrongLength
length 8192 = refused 12 WrongLength
length 8193 = refused 12 WrongLength
length 20480 = refused 12 WrongLength
length 32768 = refused 12 WrongLength
length 33791 = refused 12 WrongLength
length 33793 = refused 12 WrongLength
length 33856 = refused 12 WrongLength

# The next command goes where the count says
-- The header says five commands. The next one stands in slot 5, and the slots beside it stay closed.
format 1 1 16 = formatted
close = closed
damage 16:05 = done
open = opened
0.1 fetch 0 = nocell
close = closed
bytes 33024 1 = 00
bytes 33088 1 = a5
bytes 33152 1 = 00

# No command goes past the last count
format 1 1 16 = formatted
close = closed
damage 23:40 = done
open = opened
count = 4611686018427387904
room = 0
0.1 fetch 0 = refused 7 JournalFull
-- Nothing is to be swept, and nothing to be checkpointed.
turn = idle

# No command goes over a stale slot
format 1 1 16 = formatted
close = closed
damage 33088:a5 33096:05 16:15 = done
open = opened
count = 21
room = 0
0.1 fetch 0 = refused 7 JournalFull
-- All sixteen slots are swept, three by a turn: the stale one is the first.
turn = swept
room = 3
6 turns = swept x5, idle; room 6, 9, 12, 15, 16 x2
0.1 fetch 0 = nocell
count = 22
room = 15
close = closed
bytes 33088 2 = a5 01
bytes 33096 1 = 15

# There is room again behind the first turn that sweeps
-- The same image, and a command behind each turn.
format 1 1 16 = formatted
close = closed
damage 33088:a5 33096:05 16:15 = done
open = opened
0.1 fetch 0 = refused 7 JournalFull
turn = swept
room = 3
3 times 0.1 fetch 0 = nocell x3
room = 0
0.4 fetch 0 = refused 7 JournalFull
turn = swept
room = 3
2 times 0.4 fetch 0 = nocell x2
count = 26
room = 1
close = closed
open = opened
count = 26
room = 11
