# A fetch comes before its store, and the image keeps what became of it
disk 450560 = 450560 bytes
format 4096 16 256 = formatted
script setup / alloc x i 2 / element 1 / fetch x+0 / element 2 / store x+0 42 / = 6 lines
read = 1 blocks, 2 parts, 2 requests
serve = 0
printed = 4 lines
printed 0 = 0.1 base 0
printed 1 = 1.1 waiting
printed 2 = 2.1 stored
-- Who had to wait is told at the end.
printed 3 = 1.1 now value 42
-- Later, on the same image.
read element 1 / fetch 0 / = 0 blocks, 1 parts, 1 requests
serve = 0
printed = 1 lines
printed 0 = 1.2 value 42
count = 4
-- Each command stands in a slot of the journal: gate, group, code, element; sequence number; request; address; value.
bytes 434176 16 = a5 01 01 00 00 00 00 00 00 00 00 00 00 00 00 00
bytes 434192 16 = 01 00 00 00 00 00 00 00 02 00 00 00 00 00 00 00
bytes 434208 32 = 00 00 00 00 00 00 00 00 00 00 00 00 00 00 00 00 00 00 00 00 00 00 00 00 00 00 00 00 00 00 00 00
bytes 434240 16 = a5 01 04 00 01 00 00 00 01 00 00 00 00 00 00 00
bytes 434256 16 = 01 00 00 00 00 00 00 00 00 00 00 00 00 00 00 00
bytes 434272 32 = 00 00 00 00 00 00 00 00 00 00 00 00 00 00 00 00 00 00 00 00 00 00 00 00 00 00 00 00 00 00 00 00
bytes 434304 16 = a5 01 05 00 02 00 00 00 02 00 00 00 00 00 00 00
bytes 434320 16 = 01 00 00 00 00 00 00 00 00 00 00 00 00 00 00 00
bytes 434336 32 = 2a 00 00 00 00 00 00 00 00 00 00 00 00 00 00 00 00 00 00 00 00 00 00 00 00 00 00 00 00 00 00 00
bytes 434368 16 = a5 01 04 00 01 00 00 00 03 00 00 00 00 00 00 00
bytes 434384 16 = 02 00 00 00 00 00 00 00 00 00 00 00 00 00 00 00
bytes 434400 32 = 00 00 00 00 00 00 00 00 00 00 00 00 00 00 00 00 00 00 00 00 00 00 00 00 00 00 00 00 00 00 00 00

# Blocks and addresses have edges
disk 450560 = 450560 bytes
format 4096 16 256 = formatted
script element 0 / alloc i 4096 / alloc i 1 / alloc i 0 / alloc m 4097 / = 5 lines
read element 1 / fetch 4096 / fetch 4294967295 / = 0 blocks, 2 parts, 6 requests
serve = 0
printed = 6 lines
printed 0 = 0.1 base 0
printed 1 = 0.2 nospace
printed 2 = 0.3 badlength
printed 3 = 0.4 nospace
printed 4 = 1.1 nocell
printed 5 = 1.2 nocell

# A block of the setup that can't be made ends the script
disk 450560 = 450560 bytes
format 4096 16 256 = formatted
read setup / alloc x i 1 / alloc y i 5000 / element 1 / fetch x / = 2 blocks, 1 parts, 1 requests
serve = 1
printed = 3 lines
printed 0 = 0.1 base 0
printed 1 = 0.2 nospace
printed 2 = refused 18 BadScript

# An element that isn't there ends the script
disk 450560 = 450560 bytes
format 4096 16 256 = formatted
script setup / alloc x i 1 / alloc y m 2 / = 3 lines
script element 1 / fetch x / take y / fetch y / = 7 lines
script element 3 / put y 8 / store x 7 / store x 7 / release y / release y / = 13 lines
script element 16 / fetch x / fetch x / = 16 lines
read = 2 blocks, 3 parts, 10 requests
serve = 1
printed = 13 lines
printed 0 = 0.1 base 0
printed 1 = 0.2 base 1
printed 2 = 1.1 waiting
printed 3 = 1.2 waiting
printed 4 = 1.3 wrongkind
printed 5 = 3.1 stored
printed 6 = 3.2 stored
printed 7 = 3.3 clash
printed 8 = 3.4 released
printed 9 = 3.5 noblock
printed 10 = 1.1 now value 7
printed 11 = 1.2 now value 8
printed 12 = refused 5 NoElement

# A request may still wait at the end
disk 450560 = 450560 bytes
format 4096 16 256 = formatted
read setup / alloc x m 1 / element 1 / take x / element 2 / release x / = 1 blocks, 2 parts, 2 requests
serve = 0
printed = 4 lines
printed 0 = 0.1 base 0
printed 1 = 1.1 waiting
-- A block for which somebody waits isn't given back.
printed 2 = 2.1 stillwaiting
printed 3 = 1.1 now waiting

# A full window is confirmed before the next request
disk 450560 = 450560 bytes
format 4096 16 256 = formatted
script element 1 / = 1 lines
repeat 65 fetch 5 / = 66 lines
read = 0 blocks, 1 parts, 65 requests
serve = 0
printed = 65 lines
printed 0 to 64 = 1.1 to 1.65 nocell
-- The confirmation is a command too, and stands before the last fetch: operation 8 of element 1, sequence number 64, up
-- to 65.
count = 66
bytes 438272 16 = a5 01 08 00 01 00 00 00 40 00 00 00 00 00 00 00
bytes 438288 16 = 41 00 00 00 00 00 00 00 00 00 00 00 00 00 00 00
bytes 438304 32 = 00 00 00 00 00 00 00 00 00 00 00 00 00 00 00 00 00 00 00 00 00 00 00 00 00 00 00 00 00 00 00 00

# A full window whose first entry waits refuses the next request
disk 450560 = 450560 bytes
format 4096 16 256 = formatted
script setup / alloc x i 1 / element 1 / = 3 lines
repeat 65 fetch x / = 68 lines
read = 1 blocks, 1 parts, 65 requests
serve = 1
printed = 130 lines
printed 0 = 0.1 base 0
printed 1 to 64 = 1.1 to 1.64 waiting
printed 65 to 128 = 1.1 to 1.64 now waiting
printed 129 = refused 3 WindowFull

# An entry that was confirmed is told as it was last kept
disk 450560 = 450560 bytes
format 4096 16 256 = formatted
script setup / alloc x i 1 / element 1 / fetch x / element 2 / store x 7 / element 1 / = 7 lines
repeat 64 fetch 9 / = 71 lines
read = 1 blocks, 3 parts, 66 requests
serve = 0
printed = 68 lines
printed 0 = 0.1 base 0
printed 1 = 1.1 waiting
printed 2 = 2.1 stored
printed 3 to 66 = 1.2 to 1.65 nocell
printed 67 = 1.1 now value 7

# A full journal makes room by a checkpoint
disk 435200 = 435200 bytes
format 4096 16 16 = formatted
script element 1 / = 1 lines
repeat 20 fetch 5 / = 21 lines
read = 0 blocks, 1 parts, 20 requests
serve = 0
printed = 20 lines
printed 0 to 19 = 1.1 to 1.20 nocell
-- The journal of 16 slots was full when the 17th command came.
inspect = 0
printed = 25 lines
printed 0 = version 2
printed 1 = limits 4096 16 16
printed 2 = header 1 generation 2 area 1 count 16
printed 3 = journal 4 room 2
printed 4 = element 1 base 1 kept 20
printed 5 = entry 1.1 fetch 5 -> nocell
printed 20 = entry 1.16 fetch 5 -> nocell
printed 21 = entry 1.17 fetch 5 -> nocell
printed 24 = entry 1.20 fetch 5 -> nocell

# A stale slot where the next command goes is swept first
disk 33792 = 33792 bytes
format 1 1 16 = formatted
-- Slot 5 has an open gate and sequence number 5, and the header has a count of 21 commands.
write 33088 a5 = 00
write 33096 05 = 00
write 16 15 = 00
read element 0 / fetch 0 / = 0 blocks, 1 parts, 1 requests
serve = 0
printed = 1 lines
printed 0 = 0.1 nocell
inspect = 0
printed = 6 lines
printed 0 = version 2
printed 1 = limits 1 1 16
printed 2 = header 0 generation 1 area 0 count 21
printed 3 = journal 1 room 15
printed 4 = element 0 base 1 kept 1
printed 5 = entry 0.1 fetch 0 -> nocell
bytes 33088 2 = a5 01
bytes 33096 2 = 15 00

# A disk that fails ends the script
disk 450560 = 450560 bytes
format 4096 16 256 = formatted
read setup / alloc x i 1 / element 1 / fetch x / element 2 / store x 9 / = 1 blocks, 2 parts, 2 requests
-- Four calls for each of the first two requests, and two of the third's.
serve 10 calls past the opening = 1
printed = 4 lines
printed 0 = 0.1 base 0
printed 1 = 1.1 waiting
printed 2 = 1.1 now waiting
printed 3 = refused 8 Device

# A sync that fails ends the script, and what was answered is there at the next opening
disk 450560 = 450560 bytes
format 4096 16 256 = formatted
read setup / alloc x i 1 / element 1 / fetch x / element 2 / store x 9 / = 1 blocks, 2 parts, 2 requests
-- Four calls for each of the first two requests; the tenth is the sync behind the body of the third. Those behind it would pass.
serve but for call 10 past the opening = 1
printed = 4 lines
printed 0 = 0.1 base 0
printed 1 = 1.1 waiting
printed 2 = 1.1 now waiting
printed 3 = refused 8 Device
count = 2
-- The sync behind the gate fails: the request is not answered, and found, as the gate was written.
read element 2 / store 0 9 / = 0 blocks, 1 parts, 1 requests
serve but for call 4 past the opening = 1
printed = 1 lines
printed 0 = refused 8 Device
count = 3
read element 1 / fetch 0 / = 0 blocks, 1 parts, 1 requests
serve = 0
printed = 1 lines
printed 0 = 1.2 value 9
count = 4

# A disk without an image is refused
disk 450560 = 450560 bytes
read element 1 / fetch 0 / = 0 blocks, 1 parts, 1 requests
serve = 1
printed = 1 lines
printed 0 = refused 13 NoHeader

# A writer that fails ends the script with status 1, and the image has what was served
disk 450560 = 450560 bytes
format 4096 16 256 = formatted
read element 1 / fetch 0 / fetch 1 / fetch 2 / = 0 blocks, 1 parts, 3 requests
-- Three lines of 11 bytes each.
serve to 15 bytes = 1
printed = 1 lines, and one that doesn't end
printed 0 = 1.1 nocell
told = 1 lines
told 0 = the output can't be written: nobody reads it any more
count = 3
serve to 33 bytes = 0
printed = 3 lines
told = 0 lines
inspect to 10 bytes = 1
printed = 1 lines
printed 0 = version 2
told 0 = the output can't be written: nobody reads it any more

# Lines are written in batches of at most 4096 bytes, and where one can't be written no more is served
disk 450560 = 450560 bytes
format 4096 16 256 = formatted
script element 1 / = 1 lines
repeat 400 fetch 9 / = 401 lines
read = 0 blocks, 1 parts, 400 requests
-- 9 lines of 11 bytes, 90 of 12 and 224 of 13 are 4091; 5 confirmations stand between 324 requests.
serve to 0 bytes = 1
printed = 0 lines
told = 1 lines
told 0 = the output can't be written: nobody reads it any more
count = 329
-- From 1.325 on each line has 13 bytes: 315 are 4095, and 4 confirmations stand between 316 requests.
serve to 4091 bytes = 1
printed = 314 lines, and one that doesn't end
count = 649

# An answer that an earlier script waited for is told before its entry is confirmed
disk 450560 = 450560 bytes
format 4096 16 256 = formatted
read setup / alloc x i 1 / element 1 / fetch x / = 1 blocks, 1 parts, 1 requests
serve = 0
printed 1 = 1.1 waiting
printed 2 = 1.1 now waiting
told = 0 lines
script element 2 / store 0 42 / element 1 / = 3 lines
repeat 64 fetch 9 / = 67 lines
read = 0 blocks, 2 parts, 65 requests
serve = 0
printed = 65 lines
told = 1 lines
told 0 = confirmed 1.1 value 42
-- Two commands of the script before, 64 of this one and a confirmation.
progress = 64 served, room 189, 0 checkpoints
-- Once. The same script again finds the last answer of the one before.
serve = 0
told = 1 lines
told 0 = confirmed 1.65 nocell

# Answers that an earlier script left are named before they are confirmed
disk 450560 = 450560 bytes
format 4096 16 256 = formatted
read setup / alloc x m 1 / element 1 / put x 42 / take x / = 1 blocks, 1 parts, 2 requests
serve = 0
told = 0 lines
script element 1 / = 1 lines
repeat 63 fetch 9 / = 64 lines
read = 0 blocks, 1 parts, 63 requests
serve = 0
printed = 63 lines
told = 2 lines
told 0 = confirmed 1.1 stored
told 1 = confirmed 1.2 value 42

# What a script that goes on prints again isn't named
disk 450560 = 450560 bytes
format 4096 16 256 = formatted
script element 1 / = 1 lines
repeat 64 fetch 9 / = 65 lines
read = 0 blocks, 1 parts, 64 requests
serve once = 0
script element 1 / = 1 lines
repeat 66 fetch 9 / = 67 lines
read = 0 blocks, 1 parts, 66 requests
serve once = 0
printed = 66 lines
told = 0 lines

# It is told by the script that answers it, at the end at the latest
disk 450560 = 450560 bytes
format 4096 16 256 = formatted
read setup / alloc x i 1 / element 1 / fetch x / = 1 blocks, 1 parts, 1 requests
serve = 0
read element 3 / fetch 9 / = 0 blocks, 1 parts, 1 requests
serve = 0
told = 0 lines
read element 2 / store 0 42 / = 0 blocks, 1 parts, 1 requests
serve = 0
printed = 1 lines
told = 1 lines
told 0 = 1.1 now value 42
serve = 0
told = 0 lines

# What a refusal is told of
disk 450560 = 450560 bytes
format 4096 16 256 = formatted
read setup / alloc x i 1 / alloc y i 5000 / element 1 / fetch x / = 2 blocks, 1 parts, 1 requests
serve = 1
told = 1 lines
told 0 = block 2 of the setup can't be made
read element 16 / fetch 0 / = 0 blocks, 1 parts, 1 requests
serve = 1
told 0 = a request of element 16: the image has no such element
-- Sixty-four fetches that wait leave no place for one more.
disk 43008 = 43008 bytes
format 1 2 32 = formatted
script setup / alloc x i 1 / element 1 / = 3 lines
repeat 65 fetch 0 / = 68 lines
read = 1 blocks, 1 parts, 65 requests
serve = 1
printed = 130 lines
printed 129 = refused 3 WindowFull
told 0 = a request of element 1: its window is full: 64 requests wait; no place is given back before the oldest of them is answered
-- One fetch that waits is enough, with 63 requests behind it that are answered.
disk 43008 = 43008 bytes
format 1 2 32 = formatted
script setup / alloc x i 1 / element 1 / fetch 0 / = 4 lines
repeat 64 fetch 9 / = 68 lines
read = 1 blocks, 1 parts, 65 requests
serve = 1
printed = 67 lines
printed 66 = refused 3 WindowFull
told 0 = a request of element 1: its window is full: one request waits, and 63 answered ones stand behind it; no place is given back before it is answered
-- An image whose count of commands is the last that there is: no checkpoint makes room.
disk 33792 = 33792 bytes
format 1 1 16 = formatted
write 23 40 = 00
read element 0 / fetch 0 / = 0 blocks, 1 parts, 1 requests
serve = 1
printed = 1 lines
printed 0 = refused 7 JournalFull
told 0 = a request of element 0: the journal is full, and no checkpoint makes room

# A reason names what is out of its range, and the range
reason cells 1048577 = 1048577 cells: there may be 1 to 1048576
reason elements 65 = 65 elements: there may be 1 to 64
reason slots 15 = 15 slots: there may be 16 to 4096
reason no memory = there is not enough memory
reason in use = it is in use by another program
reason place of element 3 = a place in a part of element 3 lies past the last address

# A reason says what is wrong with a file
reason there = there is a file of that name, and it is left as it is
reason no folder = its folder isn't there
reason one file = the old file and the new one are one file
reason no permission = there is no permission for it
reason fifo = it is no ordinary file
reason input closed = standard input is closed
-- What the system doesn't name is no word of the system's.
reason output unknown = the output can't be written: a call of the system failed
reason unsynced = a sync of it failed since this machine was started, so what is read of it may not be on the disk: mount its file system anew and remove the note, or restart the machine
reason full disk new = the file can't be written: no space is left on the device; no image was made, and no file is left
reason full disk old = the file can't be written: no space is left on the device; no image was made, and what the file held before is lost
-- A sync that failed is told from a write or a read.
reason sync failed = a sync of the file failed: a call of the system failed; what is read of it from now on may not be on the disk: mount its file system anew, or restart the machine, before it is opened again
reason write failed = the file can't be written: no space is left on the device; the last command is there or not
reason read failed = the file can't be read: a call of the system failed; the last command is there or not; the same command begins again

# With --statuses a refusal ends by its kind
status of in use = 4
status of image closed = 5
status of image unmade = 5
status of image old = 5
status of image current = 5
status of image not blank = 5
status of no folder = 5
status of no permission = 5
status of fifo = 5
-- What else there is may be mended, or comes from the words.
status of there = 1
status of unsynced = 1
status of sync failed = 1
status of image unread = 1
status of full disk new = 1
status of output unknown = 1
status of input closed = 1
status of no memory = 1
status of slots 15 = 1
status of window full 1 63 = 1
