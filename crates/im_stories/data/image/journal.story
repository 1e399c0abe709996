-- A journal is a ring of slots on a disk, and a command is in it from the moment on when its slot's gate is open. Bytes
-- are two hex digits each, and `00*47` are 47 zeros. A line `with AT:BYTE .. CALL` has these bytes on the disk for its
-- call alone, and `if KIND CALL` tells what the call would answer after a crash here.
-- Its words, besides those of a disk (disk.story), are:
-- journal CELLS ELEMENTS SLOTS   a new journal, of an image of these sizes
-- append COMMAND, append fetches 1 to N    the second: element 0 fetches cell 0, by its requests 1 to N
-- group COMMAND and COMMAND ..   appends them as one group
-- tail FROM, old tail FROM       reads the run from this count on; the second, of an image of the first version
-- command I                      the command at this place of the run that was read
-- first, count, room, to sweep   of the journal
-- begin later FROM               the run begins at this count
-- sweep                          a turn of the sweep: how many gates it closed
-- slot S COMMAND, body S COMMAND puts the slot of a command in its place by hand, or all of it but the gate
-- old slot S COMMAND             the same in an image of the first version
-- spell S COMMAND                its code, and whether the same command is read from it

# Commands stand one behind another, in slots of 64 bytes
disk 450560 = blank
journal 4096 16 256 = fresh
append 0.1 alloc i 2 = ok
append 1.1 fetch 0 = ok
append 2.1 store 0 42 = ok
append 1.2 fetch 0 = ok
-- Four calls each, and one to read them all.
calls = 16
tail 0 = 4 commands, room 252
calls = 17
command 0 = 0.1 alloc i 2
command 1 = 1.1 fetch 0
command 2 = 2.1 store 0 42
command 3 = 1.2 fetch 0
command 4 = none
first = 0
count = 4
room = 252
-- An open gate, a group of one, the code, and the element; the sequence number; the request; the address; the value.
read 434176 8 = a5 01 01 00 00 00 00 00
read 434184 8 = 00*8
read 434192 8 = 01 00 00 00 00 00 00 00
read 434200 8 = 02 00 00 00 00 00 00 00
read 434208 32 = 00*32
read 434240 64 = a5 01 04 00 01 00 00 00 01 00 00 00 00 00 00 00 01 00*47
read 434304 64 = a5 01 05 00 02 00 00 00 02 00 00 00 00 00 00 00 01 00*15 2a 00*31
read 434368 64 = a5 01 04 00 01 00 00 00 03 00 00 00 00 00 00 00 02 00*47

# Each operation has its code, and is read again
spell 4611686018427387903 0.1 alloc i 4294967295 = code 1, read again
spell 4611686018427387903 1.2 alloc m 0 = code 2, read again
spell 4611686018427387903 2.3 release 7 = code 3, read again
spell 4611686018427387903 3.4 fetch 4294967295 = code 4, read again
spell 4611686018427387903 65535.18446744073709551615 store 4294967295 18446744073709551615 = code 5, read again
spell 4611686018427387903 4.5 take 9 = code 6, read again
spell 4611686018427387903 5.6 put 10 11 = code 7, read again
spell 4611686018427387903 confirm 65535 18446744073709551615 = code 8, read again
spell 4611686018427387903 6.7 reset 4294967295 = code 9, read again

# A body that a stop left behind a closed gate doesn't count
disk 33792 = blank
journal 1 1 16 = fresh
body 0 0.1 fetch 0 = ok
tail 0 = 0 commands, room 16
-- The next command goes over it.
append 0.1 take 0 = ok
tail 0 = 1 commands, room 15
command 0 = 0.1 take 0

# Once the ring is full nothing is appended, and room comes from the slots of commands that are on the pages
disk 33792 = blank
journal 1 1 16 = fresh
append fetches 1 to 16 = ok
append 0.17 fetch 0 = refused 7 JournalFull
-- A full journal makes no call: there were sixteen times four.
calls = 64
-- All sixteen are on the pages now. Their gates are open still.
tail 16 = 0 commands, room 0
write 32768 00 = ok
write 32832 00 = ok
write 32896 00 = ok
tail 16 = 0 commands, room 3
append 0.17 fetch 0 = ok
tail 16 = 1 commands, room 2
command 0 = 0.17 fetch 0
first = 16
count = 17
room = 2

# What is behind a run is stale, or the ring is damaged
disk 33792 = blank
journal 1 1 16 = fresh
tail 0 = 0 commands, room 16
count = 0
tail 5 = 0 commands, room 16
count = 5
tail 4611686018427387904 = 0 commands, room 0
count = 4611686018427387904
-- An open gate at sequence number 5, in its slot: of a command that is still to come, or of one from before.
with 33088:a5 33096:05 tail 0 = refused 16 BadRecord
with 33088:a5 33096:05 tail 21 = 0 commands, room 0
count = 21
-- And a slot behind it that isn't from before, though its gate is closed.
with 33088:a5 33096:05 33224:c8 tail 21 = refused 16 BadRecord

# A slot of the run that isn't spelled as it should be is refused
disk 33792 = blank
journal 1 1 16 = fresh
append 1.1 fetch 0 = ok
tail 0 = 1 commands, room 15
-- No group, a group of two, a group past sixteen.
with 32769:00 tail 0 = refused 16 BadRecord
with 32769:02 tail 0 = refused 16 BadRecord
with 32769:11 tail 0 = refused 16 BadRecord
-- No code, and a tenth. The ninth is of a reset.
with 32770:00 tail 0 = refused 16 BadRecord
with 32770:0a tail 0 = refused 16 BadRecord
with 32770:09 tail 0 = 1 commands, room 15
-- Behind the code, behind the element, behind the address.
with 32771:01 tail 0 = refused 16 BadRecord
with 32774:01 tail 0 = refused 16 BadRecord
with 32796:01 tail 0 = refused 16 BadRecord
-- A value of a fetch, what is behind the value, and the last byte.
with 32800:01 tail 0 = refused 16 BadRecord
with 32808:01 tail 0 = refused 16 BadRecord
with 32831:a5 tail 0 = refused 16 BadRecord

# A confirmation has no address and no value
disk 33792 = blank
journal 1 1 16 = fresh
append confirm 1 2 = ok
tail 0 = 1 commands, room 15
with 32792:01 tail 0 = refused 16 BadRecord
with 32807:01 tail 0 = refused 16 BadRecord

# The ring of an image of the first version stands where that layout has it
-- One cell and five elements: areas of four pages, and by the second version of eight.
disk 74752 = blank
journal 1 5 16 = fresh
old slot 0 0.1 alloc i 1 = ok
old slot 1 4.1 fetch 0 = ok
read 40960 3 = a5 01 01
old tail 0 = 2 commands, room 14
command 1 = 4.1 fetch 0
tail 0 = 0 commands, room 16
slot 0 3.1 fetch 0 = ok
read 73728 3 = a5 01 04
tail 0 = 1 commands, room 15
command 0 = 3.1 fetch 0

# An append that is stopped at its first call isn't on the disk
disk 33792 = blank
fuse 0 stop = so
journal 1 1 16 = fresh
append 0.1 fetch 0 = refused 8 Device
calls = 1
count = 0
room = 16
if kept tail 0 = 0 commands, room 16
if lost tail 0 = 0 commands, room 16
if a5 tail 0 = 0 commands, room 16

# An append that is stopped at the sync of its body isn't on the disk
disk 33792 = blank
fuse 1 stop = so
journal 1 1 16 = fresh
append 0.1 fetch 0 = refused 8 Device
calls = 2
count = 0
room = 16
if kept tail 0 = 0 commands, room 16
if lost tail 0 = 0 commands, room 16
if a5 tail 0 = 0 commands, room 16

# An append that is stopped at the write of its gate is on the disk or not
disk 33792 = blank
fuse 2 stop = so
journal 1 1 16 = fresh
append 0.1 fetch 0 = refused 8 Device
calls = 3
count = 0
room = 16
if kept tail 0 = 0 commands, room 16
if lost tail 0 = 0 commands, room 16
if a5 tail 0 = 1 commands, room 15

# An append that is stopped at the sync of its gate is on the disk or not
disk 33792 = blank
fuse 3 stop = so
journal 1 1 16 = fresh
append 0.1 fetch 0 = refused 8 Device
calls = 4
count = 0
room = 16
if kept tail 0 = 1 commands, room 15
if lost tail 0 = 0 commands, room 16
if a5 tail 0 = 1 commands, room 15

# An append that was answered is on the disk for good
disk 33792 = blank
fuse 4 stop = so
journal 1 1 16 = fresh
append 0.1 fetch 0 = ok
count = 1
room = 15
if kept tail 0 = 1 commands, room 15
if lost tail 0 = 1 commands, room 15
if 00 tail 0 = 1 commands, room 15

# A read that fails is told, and the next one passes
disk 33792 = blank
fuse 0 once = so
journal 1 1 16 = fresh
tail 0 = refused 8 Device
tail 0 = 0 commands, room 16
room = 16

# A full ring is swept in six turns
disk 33792 = blank
journal 1 1 16 = fresh
append fetches 1 to 16 = ok
begin later 16 = ok
to sweep = 16
room = 0
sweep = 3 gates
sweep = 3 gates
sweep = 3 gates
sweep = 3 gates
sweep = 3 gates
sweep = 1 gates
to sweep = 0
room = 16
-- Sixteen appends of four calls, five turns of four, and one of two.
calls = 86

# Behind the last damage that has a name the sweeps make room again
-- The pages have 21 commands, and only slot 5 has an open gate, over command 5: so no slot is room, and all are swept.
disk 33792 = blank
journal 1 1 16 = fresh
write 33088 a5 = ok
write 33096 05 = ok
tail 21 = 0 commands, room 0
to sweep = 16
sweep = 3 gates
room = 3
sweep = 3 gates
sweep = 3 gates
sweep = 3 gates
sweep = 3 gates
sweep = 1 gates
to sweep = 0
room = 16
-- With a slot among them that isn't stale.
with 33088:a5 33224:c8 tail 21 = refused 16 BadRecord

# What was swept is room for the next command
disk 33792 = blank
journal 1 1 16 = fresh
append fetches 1 to 16 = ok
begin later 14 = ok
sweep = 3 gates
append 0.17 fetch 0 = ok
room = 2
to sweep = 11
tail 14 = 3 commands, room 2

# A sweep that is stopped keeps the run: at its first write
-- The appends make 64 calls. The run is the last two of the sixteen commands.
disk 33792 = blank
fuse 64 stop = so
journal 1 1 16 = fresh
append fetches 1 to 16 = ok
begin later 14 = ok
sweep = refused 8 Device
if kept tail 14 = 2 commands, room 0

# A sweep that is stopped keeps the run: at its second write
disk 33792 = blank
fuse 65 stop = so
journal 1 1 16 = fresh
append fetches 1 to 16 = ok
begin later 14 = ok
sweep = refused 8 Device
if kept tail 14 = 2 commands, room 1
if lost tail 14 = 2 commands, room 0
if a5 tail 14 = 2 commands, room 0

# A sweep that is stopped keeps the run: at its sync
disk 33792 = blank
fuse 67 stop = so
journal 1 1 16 = fresh
append fetches 1 to 16 = ok
begin later 14 = ok
sweep = refused 8 Device
if kept tail 14 = 2 commands, room 3
if lost tail 14 = 2 commands, room 0
if 07 tail 14 = 2 commands, room 3

# A sweep that was answered has made its room
disk 33792 = blank
fuse 68 stop = so
journal 1 1 16 = fresh
append fetches 1 to 16 = ok
begin later 14 = ok
sweep = 3 gates
if lost tail 14 = 2 commands, room 3
if a5 tail 14 = 2 commands, room 3

# Commands of one group stand behind one gate
disk 450560 = blank
journal 4096 16 256 = fresh
group 0.1 alloc i 2 and 1.1 fetch 0 and 2.1 store 0 42 = ok
-- A body for each, a sync, the gate of the first, a sync.
calls = 6
count = 3
room = 253
tail 0 = 3 commands, room 253
command 0 = 0.1 alloc i 2
command 1 = 1.1 fetch 0
command 2 = 2.1 store 0 42
-- The first slot has the gate and counts three; the others have neither.
read 434176 8 = a5 03 01 00 00 00 00 00
read 434184 8 = 00*8
read 434192 8 = 01 00 00 00 00 00 00 00
read 434200 8 = 02 00 00 00 00 00 00 00
read 434208 32 = 00*32
read 434240 64 = 00 00 04 00 01 00 00 00 01 00 00 00 00 00 00 00 01 00*47
read 434304 64 = 00 00 05 00 02 00 00 00 02 00 00 00 00 00 00 00 01 00*15 2a 00*31
-- Their gates aren't looked at, but their counts and numbers are.
with 434240:a5 tail 0 = 3 commands, room 253
with 434241:01 tail 0 = refused 16 BadRecord
with 434248:02 tail 0 = refused 16 BadRecord
with 434177:02 tail 0 = 2 commands, room 254
with 434177:04 tail 0 = refused 16 BadRecord
with 434176:00 tail 0 = 0 commands, room 256
-- A command by itself comes behind them.
tail 0 = 3 commands, room 253
append 1.2 fetch 1 = ok
tail 0 = 4 commands, room 252
command 3 = 1.2 fetch 1

# A group goes round the ring's end, once
disk 33792 = blank
journal 1 1 16 = fresh
append fetches 1 to 14 = ok
begin later 14 = ok
sweep = 3 gates
to sweep = 11
group 0.15 fetch 0 and 0.16 take 0 and 0.17 fetch 0 = ok
room = 2
tail 14 = 3 commands, room 2
command 1 = 0.16 take 0
-- A leader of three in slot 14, and behind it slots 15 and 0.
with 33665:04 tail 14 = refused 16 BadRecord
-- A run may begin behind the group. In its middle there is no gate, so the last command would be lost.
tail 17 = 0 commands, room 2
tail 16 = 0 commands, room 3

# A group is refused whole where there is less room, and then no call is made
disk 33792 = blank
journal 1 1 16 = fresh
append fetches 1 to 14 = ok
calls = 56
group 0.15 fetch 0 and 0.16 fetch 0 and 0.17 fetch 0 = refused 7 JournalFull
calls = 56
count = 14
group 0.15 fetch 0 and 0.16 fetch 0 = ok
calls = 61
room = 0

# A group goes no further than the last count
disk 33792 = blank
journal 1 1 16 = fresh
tail 4611686018427387902 = 0 commands, room 16
group 0.1 fetch 0 and 0.2 fetch 0 and 0.3 fetch 0 = refused 7 JournalFull
group 0.1 fetch 0 and 0.2 fetch 0 = ok
count = 4611686018427387904
room = 0
tail 4611686018427387902 = 2 commands, room 0

# A group that is stopped at the write of its first body isn't on the disk
disk 450560 = blank
fuse 0 stop = so
journal 4096 16 256 = fresh
group 0.1 alloc i 2 and 1.1 fetch 0 and 2.1 store 0 42 = refused 8 Device
calls = 1
count = 0
room = 256
if kept tail 0 = 0 commands, room 256
if lost tail 0 = 0 commands, room 256
if a5 tail 0 = 0 commands, room 256

# A group that is stopped at the write of its second body isn't on the disk
disk 450560 = blank
fuse 1 stop = so
journal 4096 16 256 = fresh
group 0.1 alloc i 2 and 1.1 fetch 0 and 2.1 store 0 42 = refused 8 Device
calls = 2
count = 0
room = 256
if kept tail 0 = 0 commands, room 256
if lost tail 0 = 0 commands, room 256
if a5 tail 0 = 0 commands, room 256

# A group that is stopped at the write of its last body isn't on the disk
disk 450560 = blank
fuse 2 stop = so
journal 4096 16 256 = fresh
group 0.1 alloc i 2 and 1.1 fetch 0 and 2.1 store 0 42 = refused 8 Device
calls = 3
count = 0
room = 256
if kept tail 0 = 0 commands, room 256
if lost tail 0 = 0 commands, room 256
if a5 tail 0 = 0 commands, room 256

# A group that is stopped at the sync of its bodies isn't on the disk
disk 450560 = blank
fuse 3 stop = so
journal 4096 16 256 = fresh
group 0.1 alloc i 2 and 1.1 fetch 0 and 2.1 store 0 42 = refused 8 Device
calls = 4
count = 0
room = 256
if kept tail 0 = 0 commands, room 256
if lost tail 0 = 0 commands, room 256
if a5 tail 0 = 0 commands, room 256

# A group that is stopped at the write of its gate is on the disk or not, whole
disk 450560 = blank
fuse 4 stop = so
journal 4096 16 256 = fresh
group 0.1 alloc i 2 and 1.1 fetch 0 and 2.1 store 0 42 = refused 8 Device
calls = 5
count = 0
room = 256
if kept tail 0 = 0 commands, room 256
if lost tail 0 = 0 commands, room 256
if a5 tail 0 = 3 commands, room 253

# A group that is stopped at the sync of its gate is on the disk or not, whole
disk 450560 = blank
fuse 5 stop = so
journal 4096 16 256 = fresh
group 0.1 alloc i 2 and 1.1 fetch 0 and 2.1 store 0 42 = refused 8 Device
calls = 6
count = 0
room = 256
if kept tail 0 = 3 commands, room 253
if lost tail 0 = 0 commands, room 256
if a5 tail 0 = 3 commands, room 253

# A group that was answered is on the disk for good
disk 450560 = blank
fuse 6 stop = so
journal 4096 16 256 = fresh
group 0.1 alloc i 2 and 1.1 fetch 0 and 2.1 store 0 42 = ok
count = 3
if kept tail 0 = 3 commands, room 253
if lost tail 0 = 3 commands, room 253
if 00 tail 0 = 3 commands, room 253
