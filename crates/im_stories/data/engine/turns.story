# The least image is checkpointed by seven turns
-- A checkpoint goes a turn at a time: the pages into the other area, a sync, the other header, and then the slots that
-- the new area holds are swept, three by a turn.
format 1 1 16 = formatted
0.1 alloc i 1 = base 0
0.2 fetch 0 = waiting
0.3 store 0 0 = stored
turn = began
turn = page 0
turn = page 1
turn = page 2
turn = synced
turn = in force
turn = swept
turn = idle
room = 16
close = closed
-- The format makes four calls, the three commands twelve, and the turns thirteen.
calls = 29

# A full journal is emptied by 61 turns
format 4096 16 16 in 435200 bytes = formatted
16 times 1.1 fetch 0 = nocell x16
room = 0
2.1 fetch 0 = refused 7 JournalFull
collect 2.1 = refused 1 Gap
count = 16
-- There is no room before the first sweep. An area has 52 pages.
62 turns = began, page 0..51, synced, in force, swept x6, idle; room 0 x55, 3, 6, 9, 12, 15, 16 x2
count = 16
close = closed
-- The format, sixteen commands, and the turns: 52, 2, 4, five times 4, and 2.
calls = 148

# A run wraps the journal three times
-- After the format all pages of the other area are written. From then on only those that changed since the area's last
-- checkpoint began: the sessions of elements 1 to 3 stand on the pages 37 to 39.
format 4096 16 16 = formatted
plan 16 times 1.1 fetch 0 = 16 events
plan 62 turns = 78 events
plan 16 times 2.1 fetch 0 = 94 events
plan 12 turns = 106 events
plan 16 times 3.1 fetch 0 = 122 events
plan 12 turns = 134 events
plan 4.1 fetch 0 = 135 events
plan 4.2 fetch 0 = 136 events
run = 136 answers
answers 0 to 77 = nocell x16, began, page 0..51, synced, in force, swept x6, idle
answers 78 to 105 = nocell x16, began, page 37..38, synced, in force, swept x6, idle
answers 106 to 133 = nocell x16, began, page 38..39, synced, in force, swept x6, idle
answers 134 to 135 = nocell x2
close = closed
open = opened
count = 50
room = 14
-- After an opening every page of both areas counts as changed.
60 turns = began, page 0..51, synced, in force, swept, idle x4; room 14 x55, 16 x5

# The third header is in force after three checkpoints
format 4096 16 16 = formatted
16 times 1.1 fetch 0 = nocell x16
61 turns = began, page 0..51, synced, in force, swept x6; room 0 x55, 3, 6, 9, 12, 15, 16
16 times 2.1 fetch 0 = nocell x16
11 turns = began, page 37..38, synced, in force, swept x6; room 0 x5, 3, 6, 9, 12, 15, 16
16 times 3.1 fetch 0 = nocell x16
11 turns = began, page 38..39, synced, in force, swept x6; room 0 x5, 3, 6, 9, 12, 15, 16
4.1 fetch 0 = nocell
close = closed
-- The gate and the area of the other header, its generation and its count.
bytes 4096 2 = a5 01
bytes 4104 1 = 04
bytes 4112 1 = 30
-- The gate of the first slot, and its sequence number.
bytes 434176 1 = a5
bytes 434184 1 = 30

# A page is written as it was when the checkpoint began
-- A store acts behind the first turn, on the page of cells and on both pages of sessions that are still to be written.
-- The area has the memory of two commands; the third is in the journal.
format 4096 16 256 = formatted
0.1 alloc i 1 = base 0
1.1 fetch 0 = waiting
turn = began
2.1 store 0 7 = stored
54 turns = page 0..51, synced, in force; room 253 x54
close = closed
crash lost = crashed
-- The header in force: its gate and area, its generation and its count.
bytes 4096 2 = a5 01
bytes 4104 1 = 02
bytes 4112 1 = 02
open = opened
count = 3
cell 0 = full 7 in block 0 of 1 i
collect 1.1 = value 7
room = 253

# A run answers as its commands do one by one
format 3 6 32 = formatted
0.1 alloc i 1 = base 0
1.1 fetch 0 = waiting
2.1 fetch 0 = waiting
1.2 fetch 0 = waiting
3.1 store 0 7 = stored
0.2 alloc m 1 = base 1
3.2 take 1 = waiting
1.3 take 1 = waiting
2.2 take 1 = waiting
4.1 put 1 10 = stored
4.2 put 1 20 = stored
4.3 put 1 30 = stored
confirm 1 4 = confirmed
5.1 fetch 0 = value 7
5.2 store 0 8 = clash
5.3 fetch 1 = wrongkind
0.3 release 1 = released
0.4 alloc i 2 = base 1
5.4 store 2 9 = stored
5.5 fetch 2 = value 9
plan as told = 20 events
format 3 6 32 = formatted
run = 20 answers
answers 0 to 8 = base 0, waiting x3, stored, base 1, waiting x3
answers 9 to 15 = stored x3, confirmed, value 7, clash, wrongkind
answers 16 to 19 = released, base 1, stored, value 9
count = 20
room = 12

# A run goes on after a refusal and after a fault
-- The disk stops behind the format, two commands, and the write of the third one's body.
fuse 13 stop = set
format 3 6 32 = formatted
plan 0.1 alloc i 1 = 1 events
plan 1.2 fetch 0 = 2 events
plan 1.1 fetch 0 = 3 events
plan 1.1 fetch 1 = 4 events
plan 1.1 fetch 0 = 5 events
plan 2.1 store 0 7 = 6 events
plan 1.1 fetch 0 = 7 events
plan 1.2 fetch 0 = 8 events
run = 8 answers
answers 0 to 3 = base 0, refused 1 Gap, waiting, refused 4 Mismatch
answers 4 to 7 = waiting, refused 8 Device, refused 9 Failed x2
count = 2
room = 30

# Cells that an opening reads in three parts are found again, and so is who waits at one
-- An area has 157 pages of cells, one of nodes and two of sessions. Those of the cells from 8,192 and from 16,384 on are
-- read by calls of their own.
format 20000 2 16 = formatted
0.1 alloc i 20000 = base 0
1.1 store 0 1 = stored
1.2 store 8191 2 = stored
1.3 store 8192 3 = stored
1.4 store 16383 4 = stored
1.5 store 16384 5 = stored
1.6 store 19999 6 = stored
1.7 fetch 12000 = waiting
167 turns = began, page 0..159, synced, in force, swept x3, idle; room 8 x163, 11, 14, 16 x2
close = closed
crash lost = crashed
open = opened
count = 8
room = 16
cell 0 = full 1 in block 0 of 20000 i
cell 8191 = full 2 in block 0 of 20000 i
cell 8192 = full 3 in block 0 of 20000 i
cell 16383 = full 4 in block 0 of 20000 i
cell 16384 = full 5 in block 0 of 20000 i
cell 19999 = full 6 in block 0 of 20000 i
waiting 12000 = 1.7
1.8 store 12000 7 = stored
collect 1.7 = value 7
1.9 fetch 16385 = waiting

# A full journal is emptied by two sweeps
format 4096 16 16 = formatted
16 times 1.1 fetch 0 = nocell x16
-- Nothing is swept before an area has the commands, nor while a checkpoint is under way.
sweep 64 = swept 0; room 0
54 turns = began, page 0..51, synced; room 0 x54
sweep 64 = swept 0; room 0
turn = in force
sweep 5 = swept 5; room 5
sweep 64 = swept 11; room 16
sweep 64 = swept 0; room 16
turn = idle
count = 16
close = closed
-- The format, sixteen commands, the turns up to the one that puts the area in force, and 6 and 12 for the sweeps.
calls = 144

# A run sweeps as the engine does, and nothing while a checkpoint is under way
-- An area has a page of cells, one of nodes and two of sessions.
format 3 2 16 = formatted
plan 16 times 1.1 fetch 0 = 16 events
plan sweep 64 = 17 events
plan 6 turns = 23 events
plan sweep 64 = 24 events
plan turn = 25 events
plan sweep 5 = 26 events
plan sweep 64 = 27 events
plan turn = 28 events
plan 0.1 fetch 0 = 29 events
run = 29 answers
answers 0 to 16 = nocell x16, swept 0
answers 17 to 24 = began, page 0..3, synced, swept 0, in force
answers 25 to 28 = swept 5, swept 11, idle, nocell
count = 17
room = 15
close = closed
-- The format, sixteen commands, the turns up to the one that puts the area in force, 6 and 12 for the sweeps, and one command.
calls = 100
