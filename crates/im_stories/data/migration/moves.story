# A fetch that came before its store is moved on with its answer
-- The slots of three commands stand in the old image's journal.
old image 4096 16 256 = 327680 bytes
old write 311296 a5 01 01 = a50101
old write 311312 01 00 00 00 00 00 00 00 02 = 010000000000000002
old write 311360 a5 01 04 00 01 00 00 00 01 = a50104000100000001
old write 311376 01 = 01
old write 311424 a5 01 05 00 02 00 00 00 02 = a50105000200000002
old write 311440 01 = 01
old write 311456 2a = 2a
new disk 450560 = 450560 bytes
mark = marked
length for old = 450560
migrate = migrated 3
-- The headers, the area and the journal are read. A sync and two gates; 52 pages, 256 slots, the header, a sync, its gate,
-- a sync.
calls = 4 and 425
old as marked = yes
new means old = yes
new report = 12 lines
printed 0 = version 2
printed 1 = limits 4096 16 256
printed 2 = header 0 generation 1 area 0 count 3
printed 3 = journal 0 room 256
printed 4 = block 0 i 2
printed 5 = cell 0 full 42
printed 6 = element 0 base 1 kept 1
printed 7 = entry 0.1 alloc i 2 -> base 0
printed 8 = element 1 base 1 kept 1
printed 9 = entry 1.1 fetch 0 -> value 42
printed 10 = element 2 base 1 kept 1
printed 11 = entry 2.1 store 0 42 -> stored
new opening = count 3 room 256
-- An image isn't written over.
mark = marked
migrate = refused 22 NotBlank
calls = 4 and 3
new as marked = yes
old as marked = yes

# What the new file held beside its gates doesn't count
old image 4096 16 256 = 327680 bytes
old write 311296 a5 01 01 = a50101
old write 311312 01 00 00 00 00 00 00 00 02 = 010000000000000002
old write 311360 a5 01 04 00 01 00 00 00 01 = a50104000100000001
old write 311376 01 = 01
old write 311424 a5 01 05 00 02 00 00 00 02 = a50105000200000002
old write 311440 01 = 01
old write 311456 2a = 2a
new disk 450560 of 5a = 450560 bytes
migrate = migrated 3
new means old = yes
new opening = count 3 room 256

# Who waits goes on waiting, in the same order
old image 2 2 16 = 33792 bytes
-- Three commands are on the pages: two requests wait at cell 0, that of element 1 first. Cell 1 is free.
old write 16 03 = 03
old write 8192 02 01 = 0201
old write 8200 01 00 00 00 00 00 00 00 01 00 00 00 = 010000000000000001000000
old write 12288 01 00 00 00 01 00 01 00 01 = 010000000100010001
old write 12304 ff ff ff ff 00 00 01 00 02 = ffffffff0000010002
old write 16384 01 00 00 00 00 00 00 00 02 = 010000000000000002
old write 16448 01 00 01 00 01 = 0100010001
old write 16480 04 = 04
old write 17408 01 00 00 00 00 00 00 00 01 = 010000000000000001
old write 17472 04 = 04
-- And a store of element 0 that is in the journal.
old write 32960 a5 01 05 00 00 00 00 00 03 00 00 00 00 00 00 00 03 = a501050000000000030000000000000003
old write 32992 2a = 2a
new disk 41984 = 41984 bytes
length for old = 41984
with old 32960:00 = migrated 3
old write 32960 00 = 00
migrate = migrated 3
new means old = yes
new report = 11 lines
printed 2 = header 0 generation 1 area 0 count 3
printed 3 = journal 0 room 16
printed 4 = block 0 i 1
printed 5 = cell 0 waiting 1.1 0.2
printed 6 = element 0 base 1 kept 2
printed 7 = entry 0.1 alloc i 1 -> base 0
printed 8 = entry 0.2 fetch 0 -> waiting
printed 9 = element 1 base 1 kept 1

# A store in the journal answers who waits on the pages
old image 2 2 16 = 33792 bytes
-- Three commands are on the pages: two requests wait at cell 0, that of element 1 first. Cell 1 is free.
old write 16 03 = 03
old write 8192 02 01 = 0201
old write 8200 01 00 00 00 00 00 00 00 01 00 00 00 = 010000000000000001000000
old write 12288 01 00 00 00 01 00 01 00 01 = 010000000100010001
old write 12304 ff ff ff ff 00 00 01 00 02 = ffffffff0000010002
old write 16384 01 00 00 00 00 00 00 00 02 = 010000000000000002
old write 16448 01 00 01 00 01 = 0100010001
old write 16480 04 = 04
old write 17408 01 00 00 00 00 00 00 00 01 = 010000000000000001
old write 17472 04 = 04
old write 32960 a5 01 05 00 00 00 00 00 03 00 00 00 00 00 00 00 03 = a501050000000000030000000000000003
old write 32992 2a = 2a
new disk 41984 = 41984 bytes
migrate = migrated 4
new means old = yes
new report = 12 lines
printed 2 = header 0 generation 1 area 0 count 4
printed 5 = cell 0 full 42
printed 8 = entry 0.2 fetch 0 -> value 42
printed 9 = entry 0.3 store 0 42 -> stored
new opening = count 4 room 16

# The last count there is leaves no room
old image 1 1 16 = 33792 bytes
old write 23 40 = 40
new disk 33792 = 33792 bytes
migrate = migrated 4611686018427387904
calls = 4 and 35
new means old = yes
new opening = count 4611686018427387904 room 0

# The other area of the old image may be in force
old image 1 1 16 = 33792 bytes
-- Header 1 at generation 2, with five commands; its area is copied from the first one's.
old write 4096 a5 01 01 00 49 4d 45 4d 02 00 00 00 00 00 00 00 05 = a5010100494d454d020000000000000005
old write 4120 01 00 00 00 01 00 00 00 10 = 010000000100000010
old write 20488 ff ff ff ff ff ff ff ff ff ff ff ff = ffffffffffffffffffffffff
old write 28672 01 = 01
new disk 33792 = 33792 bytes
migrate = migrated 5
new means old = yes
new report = 4 lines
printed 2 = header 0 generation 1 area 0 count 5
printed 3 = journal 0 room 16

# The first fault of the old image is told, and nothing is written
old image 1 1 16 = 33792 bytes
new disk 33792 = 33792 bytes
mark = marked
with old 0:00 = refused 13 NoHeader
with old 1:01 = refused 14 BadHeader
with old 8:00 = refused 14 BadHeader
with old 24:00 = refused 14 BadHeader
with old 32:0f = refused 14 BadHeader
with old 36:01 = refused 14 BadHeader
with old 32:11 = refused 12 WrongLength
with old 8192:07 = refused 15 BadPage
with old 16392:11 = refused 15 BadPage
-- A slot behind the run that is of no command before the header's.
with old 33088:a5 = refused 16 BadRecord
new as marked = yes

# By the first version's rules an image of the second one has a bad header, whatever else is wrong with it
current image 1 1 16 = 33792 bytes
new disk 33792 = 33792 bytes
migrate = refused 14 BadHeader
calls = 2 and 0
length for old = refused 14 BadHeader
with old 0:00 = refused 13 NoHeader
with old 32:11 = refused 14 BadHeader
with old 8192:07 = refused 14 BadHeader
with old 2:03 = refused 14 BadHeader
-- By the first version more nodes stand there than it has.
with old 2:01 = refused 15 BadPage
old cut 40000 = 40000 bytes
migrate = refused 14 BadHeader
old cut 8191 = 8191 bytes
migrate = refused 12 WrongLength

# The new file has to have the length that the image needs, whatever is in it
old image 4096 16 256 = 327680 bytes
old write 311296 a5 01 01 = a50101
old write 311312 01 00 00 00 00 00 00 00 02 = 010000000000000002
old write 311360 a5 01 04 00 01 00 00 00 01 = a50104000100000001
old write 311376 01 = 01
old write 311424 a5 01 05 00 02 00 00 00 02 = a50105000200000002
old write 311440 01 = 01
old write 311456 2a = 2a
new disk 450559 = 450559 bytes
migrate = refused 12 WrongLength
calls = 4 and 0
new disk 327680 of a5 = 327680 bytes
mark = marked
migrate = refused 12 WrongLength
new as marked = yes
new disk 0 = 0 bytes
migrate = refused 12 WrongLength
new disk 450561 = 450561 bytes
migrate = refused 12 WrongLength

# A gate of the new file that is open is left alone, whatever stands behind it
old image 4096 16 256 = 327680 bytes
old write 311296 a5 01 01 = a50101
old write 311312 01 00 00 00 00 00 00 00 02 = 010000000000000002
old write 311360 a5 01 04 00 01 00 00 00 01 = a50104000100000001
old write 311376 01 = 01
old write 311424 a5 01 05 00 02 00 00 00 02 = a50105000200000002
old write 311440 01 = 01
old write 311456 2a = 2a
new disk 450560 = 450560 bytes
with 0:a5 = refused 22 NotBlank
with 4096:a5 = refused 22 NotBlank
with 0:a4 = migrated 3
with 4096:5a = migrated 3
with 8192:a5 = migrated 3
new write 4096 a5 = a5
mark = marked
migrate = refused 22 NotBlank
new as marked = yes
