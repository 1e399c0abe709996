# Three requests go to the disk as one group
-- The bodies stand in three slots, and one gate opens them: the first slot says that there are three.
format 4096 16 256 in 450560 bytes = formatted
together 0.1 alloc i 2 with 1.1 fetch 0 with 2.1 store 0 42 = base 0, waiting, stored
count = 3
room = 253
collect 1.1 = value 42
close = closed
-- A format makes four calls, and the group six: three writes, a sync, the gate, a sync.
slot 0 = a5 03 01 00*13 01 00 00 00 00 00 00 00 02 00*39
slot 1 = 00 00 04 00 01 00 00 00 01 00 00 00 00 00 00 00 01 00*47
slot 2 = 00 00 05 00 02 00 00 00 02 00 00 00 00 00 00 00 01 00*15 2a 00*31
slot 3 = 00*64
open = opened
count = 3
room = 253
1.1 fetch 0 = value 42

# A stop while no body is written, and a crash that leaves a byte a5 all over of what wasn't synced
fuse 4 stop = set
format 4096 16 256 = formatted
together 0.1 alloc i 2 with 1.1 fetch 0 with 2.1 store 0 42 = refused 8 Device, refused 8 Device, refused 8 Device
failed = true
count = 0
together 0.1 alloc i 2 with 1.1 fetch 0 = refused 9 Failed, refused 9 Failed
close = closed
crash a5 = crashed
open = opened
count = 0
collect 0.1 = refused 1 Gap
together 0.1 alloc i 2 with 1.1 fetch 0 with 2.1 store 0 42 = base 0, waiting, stored
count = 3

# A stop while one body is written, and a crash that leaves a byte a5 all over of what wasn't synced
fuse 5 stop = set
format 4096 16 256 = formatted
together 0.1 alloc i 2 with 1.1 fetch 0 with 2.1 store 0 42 = refused 8 Device, refused 8 Device, refused 8 Device
failed = true
count = 0
together 0.1 alloc i 2 with 1.1 fetch 0 = refused 9 Failed, refused 9 Failed
close = closed
crash a5 = crashed
open = opened
count = 0
collect 0.1 = refused 1 Gap
together 0.1 alloc i 2 with 1.1 fetch 0 with 2.1 store 0 42 = base 0, waiting, stored
count = 3

# A stop while two bodies are written, and a crash that leaves a byte a5 all over of what wasn't synced
fuse 6 stop = set
format 4096 16 256 = formatted
together 0.1 alloc i 2 with 1.1 fetch 0 with 2.1 store 0 42 = refused 8 Device, refused 8 Device, refused 8 Device
failed = true
count = 0
together 0.1 alloc i 2 with 1.1 fetch 0 = refused 9 Failed, refused 9 Failed
close = closed
crash a5 = crashed
open = opened
count = 0
collect 0.1 = refused 1 Gap
together 0.1 alloc i 2 with 1.1 fetch 0 with 2.1 store 0 42 = base 0, waiting, stored
count = 3

# A stop while the bodies are written and not synced, and a crash that leaves a byte a5 all over of what wasn't synced
fuse 7 stop = set
format 4096 16 256 = formatted
together 0.1 alloc i 2 with 1.1 fetch 0 with 2.1 store 0 42 = refused 8 Device, refused 8 Device, refused 8 Device
failed = true
count = 0
together 0.1 alloc i 2 with 1.1 fetch 0 = refused 9 Failed, refused 9 Failed
close = closed
crash a5 = crashed
open = opened
count = 0
collect 0.1 = refused 1 Gap
together 0.1 alloc i 2 with 1.1 fetch 0 with 2.1 store 0 42 = base 0, waiting, stored
count = 3

# A stop while the gate is being written, and a crash that leaves nothing of what wasn't synced
fuse 8 stop = set
format 4096 16 256 = formatted
together 0.1 alloc i 2 with 1.1 fetch 0 with 2.1 store 0 42 = refused 8 Device, refused 8 Device, refused 8 Device
failed = true
count = 0
together 0.1 alloc i 2 with 1.1 fetch 0 = refused 9 Failed, refused 9 Failed
close = closed
crash lost = crashed
open = opened
count = 0
collect 0.1 = refused 1 Gap
together 0.1 alloc i 2 with 1.1 fetch 0 with 2.1 store 0 42 = base 0, waiting, stored
count = 3

# A stop while the gate is being written, and a crash that leaves a byte a5 all over of what wasn't synced
fuse 8 stop = set
format 4096 16 256 = formatted
together 0.1 alloc i 2 with 1.1 fetch 0 with 2.1 store 0 42 = refused 8 Device, refused 8 Device, refused 8 Device
failed = true
count = 0
together 0.1 alloc i 2 with 1.1 fetch 0 = refused 9 Failed, refused 9 Failed
close = closed
crash a5 = crashed
open = opened
count = 3
collect 1.1 = value 42
together 0.1 alloc i 2 with 1.1 fetch 0 with 2.1 store 0 42 = base 0, value 42, stored
count = 3

# A stop while the gate is written and not synced, and a crash that leaves nothing of what wasn't synced
fuse 9 stop = set
format 4096 16 256 = formatted
together 0.1 alloc i 2 with 1.1 fetch 0 with 2.1 store 0 42 = refused 8 Device, refused 8 Device, refused 8 Device
failed = true
count = 0
together 0.1 alloc i 2 with 1.1 fetch 0 = refused 9 Failed, refused 9 Failed
close = closed
crash lost = crashed
open = opened
count = 0
collect 0.1 = refused 1 Gap
together 0.1 alloc i 2 with 1.1 fetch 0 with 2.1 store 0 42 = base 0, waiting, stored
count = 3

# A stop while the gate is written and not synced, and a crash that leaves all of what wasn't synced
fuse 9 stop = set
format 4096 16 256 = formatted
together 0.1 alloc i 2 with 1.1 fetch 0 with 2.1 store 0 42 = refused 8 Device, refused 8 Device, refused 8 Device
failed = true
count = 0
together 0.1 alloc i 2 with 1.1 fetch 0 = refused 9 Failed, refused 9 Failed
close = closed
crash kept = crashed
open = opened
count = 3
collect 1.1 = value 42
together 0.1 alloc i 2 with 1.1 fetch 0 with 2.1 store 0 42 = base 0, value 42, stored
count = 3

# Who isn't accepted is answered, and takes no place in the group
format 4096 16 256 = formatted
0.1 alloc i 2 = base 0
1.1 fetch 0 = waiting
-- A repeat, a store, a number too far, one of an element that isn't there, and a fetch that comes behind the store.
together 1.1 fetch 0 with 2.1 store 0 42 with 3.2 fetch 0 with 16.1 fetch 0 with 4.1 fetch 0 = waiting, stored, refused 1 Gap, refused 5 NoElement, value 42
count = 4
room = 252
close = closed
-- A format of four calls, two commands of four, and a group of two: five.
calls = 17
slot 2 = a5 02 05 00 02 00 00 00 02 00 00 00 00 00 00 00 01 00*15 2a 00*31
slot 3 = 00 00 04 00 04 00 00 00 03 00 00 00 00 00 00 00 01 00*47
slot 4 = 00*64

# A group of repeats makes no call of the disk
format 4096 16 256 = formatted
0.1 alloc i 2 = base 0
1.1 store 0 7 = stored
together 0.1 alloc i 2 with 1.1 store 0 7 with 2.2 fetch 0 = base 0, stored, refused 1 Gap
together 3.1 fetch 9 = nocell
count = 3
close = closed
calls = 16

# In one group a put answers the take ahead of it, and the take behind it waits
format 4096 16 256 = formatted
0.1 alloc m 1 = base 0
together 1.1 take 0 with 2.1 put 0 7 with 3.1 take 0 = waiting, stored, waiting
collect 1.1 = value 7
together 4.1 put 0 8 with 5.1 put 0 9 = stored, stored
collect 3.1 = value 8
cell 0 = full 9 in block 0 of 1 m
6.1 take 0 = value 9
count = 7
close = closed
open = opened
count = 7
collect 3.1 = value 8

# Where the room ends, later members are answered on the memory without the refused ones
format 4096 16 16 = formatted
14 times 1.1 fetch 9 = nocell x14
room = 2
-- Of four that are new two have room; the repeat and the gap among them are answered as ever.
together 0.1 alloc i 1 with 2.1 store 0 5 with 3.1 fetch 0 with 1.14 fetch 9 with 4.1 store 0 6 with 5.3 fetch 0 = base 0, stored, refused 7 JournalFull, nocell, refused 7 JournalFull, refused 1 Gap
count = 16
room = 0
together 3.1 fetch 0 = refused 7 JournalFull
cell 0 = full 5 in block 0 of 1 i

# A run of a group, a command, a turn and a group, each of which tells the room that it found
format 4096 16 16 = formatted
plan together 0.1 alloc i 2 with 1.1 fetch 0 with 2.1 store 0 42 = 1 events
plan 1.2 fetch 1 = 2 events
plan turn = 3 events
plan together 3.1 fetch 0 with 4.1 fetch 1 with 2.1 store 0 42 = 4 events
run = 4 answers
-- The last member was served before: it is told again, and takes no room.
answers 0 to 3 = room 16 [base 0, waiting, stored], waiting, began, room 12 [value 42, waiting, stored]
count = 6
room = 10

# A run that stops while a group's gate is written: a crash that loses it leaves nothing of the group
fuse 11 stop = set
format 4096 16 256 = formatted
plan 0.1 alloc i 2 = 1 events
plan together 1.1 fetch 0 with 2.1 store 0 42 = 2 events
plan turn = 3 events
plan together 3.1 fetch 0 with 4.1 fetch 1 = 4 events
run = 4 answers
answers 0 to 1 = base 0, room 255 [refused 8 Device, refused 8 Device]
answers 2 to 3 = refused 9 Failed, room 255 [refused 9 Failed, refused 9 Failed]
close = closed
crash lost = crashed
open = opened
count = 1
collect 1.1 = refused 1 Gap
collect 2.1 = refused 1 Gap

# The same, and a crash that leaves the gate's byte: all of the group is there
fuse 11 stop = set
format 4096 16 256 = formatted
plan 0.1 alloc i 2 = 1 events
plan together 1.1 fetch 0 with 2.1 store 0 42 = 2 events
run = 2 answers
answers 0 to 1 = base 0, room 255 [refused 8 Device, refused 8 Device]
close = closed
crash a5 = crashed
open = opened
count = 3
collect 1.1 = value 42
collect 2.1 = stored

# A group of three is stopped at each of its six calls, or fails there once
-- Three bodies, a sync, the gate, a sync. Told is how many of the three are found where each call is the one that fails. Each member is refused,
-- and each of the same group again; then all three are sent again one by one, and all is as here.
format 3 6 32 = formatted
0.1 alloc i 2 = base 0
1.1 fetch 0 = waiting
2.1 store 0 42 = stored
1.1 fetch 0 = value 42
count = 3
room = 29
in each group stop kept = 0 x5, 3
in each group stop lost = 0 x6
in each group stop a5 = 0 x4, 3 x2
in each group stop 00 = 0 x6
-- One fault, with no crash: the same disk is opened again.
in each group once = 0 x5, 3
in each group scar:00 = 0 x5, 3
in each group scar:a5 = 0 x4, 3 x2

# A group of sixteen that fills the journal is stopped at each of its nineteen calls, or fails there once
format 4 16 16 = formatted
0.1 alloc i 4 = base 0
1.1 fetch 0 = waiting
2.1 fetch 0 = waiting
3.1 store 0 7 = stored
4.1 take 0 = wrongkind
5.1 fetch 0 = value 7
6.1 alloc i 1 = nospace
7.1 store 1 1 = stored
8.1 store 1 2 = clash
9.1 fetch 2 = waiting
10.1 release 0 = stillwaiting
11.1 store 2 5 = stored
12.1 release 0 = released
13.1 fetch 0 = nocell
14.1 alloc m 4 = base 0
15.1 put 3 9 = stored
1.1 fetch 0 = value 7
2.1 fetch 0 = value 7
9.1 fetch 2 = value 5
count = 16
room = 0
in each group stop kept = 0 x18, 16
in each group stop lost = 0 x19
in each group stop a5 = 0 x17, 16 x2
in each group stop 00 = 0 x19
in each group once = 0 x18, 16
in each group scar:00 = 0 x18, 16
in each group scar:a5 = 0 x17, 16 x2
