-- The words of all these stories, besides the commands, those of a file (crates/im_story_disk/src/calls.rt), and
-- `count`, `room`, `failed`, `window`, `collect`, `cell` and `waiting` of the engine, are:
-- format 4096 16 256 = formatted  a new image of these cells, elements and slots; or in a file of a given length
-- 16 times 1.1 fetch 0 = nocell x16   sixteen requests, 1.1 to 1.16
-- together 0.1 alloc i 2 with 1.1 fetch 0 = base 0, waiting    requests of different elements as one group
-- commands confirm 0 2 with 1.2 fetch 0 = confirmed, waiting   any commands as one group, which may end early
-- behind 0.1 alloc i 2 with 1.1 fetch 0 = 2 ahead []           requests that are put ahead, behind the group that is
-- behind none = 0 ahead [base 0, waiting]                      the group that is ahead, and none behind it
-- 3 turns = began, page 0..1; room 0 x3
-- sweep 64 = swept 16; room 16    closes at most 64 slots with one sync
-- plan 1.1 fetch 0 = 1 events     what the next run does: commands, groups, turns, sweeps, or all commands as told
-- run = 1 answers
-- answers 0 to 0 = nocell
-- close = closed                  leaves the file
-- slot 0 = 00*64                  a slot of its journal
-- open = opened
-- with 16:05 = count 5 room 256   the result of opening a copy with this byte
-- length 8191 = refused ..        or a copy of this length
-- each 0 to 3 as 00 ff = ..       the same for each of these bytes at each of these places
-- in each length 0 to 9 = ..      the result of opening a copy of each length; equal ones in a row once
-- in each value of 0 to 3 = ..    the same for each value of each of these bytes
-- in each serve stop kept = ..    a stop in each call of each serve, a crash, and all is sent again; so of an opening, of
--                                 a reopening after a stop, of the script as a group or a chain, of each turn, of a
--                                 call on the closed file, and of the run that was planned

# A fetch comes before its store
-- An I cell is written at most once. A fetch that comes too early is deferred, and the store answers it.
format 4096 16 256 in 450560 bytes = formatted
0.1 alloc i 2 = base 0
1.1 fetch 0 = waiting
2.1 store 0 42 = stored
1.2 fetch 0 = value 42
collect 1.1 = value 42
close = closed
-- Each command stands in a slot of the journal: gate, group, code, element; sequence number; request; address; value.
slot 0 = a5 01 01 00*13 01 00 00 00 00 00 00 00 02 00*39
slot 1 = a5 01 04 00 01 00 00 00 01 00 00 00 00 00 00 00 01 00*47
slot 2 = a5 01 05 00 02 00 00 00 02 00 00 00 00 00 00 00 01 00*15 2a 00*31
slot 3 = a5 01 04 00 01 00 00 00 03 00 00 00 00 00 00 00 02 00*47
slot 4 = 00*64
bytes 434176 8 = a5 01 01 00 00 00 00 00

# Readers wait in their order, and one store answers them all
format 4096 16 256 = formatted
0.1 alloc i 1 = base 0
waiting 0 =
1.1 fetch 0 = waiting
waiting 0 = 1.1
2.1 fetch 0 = waiting
waiting 0 = 1.1 2.1
1.2 fetch 0 = waiting
waiting 0 = 1.1 2.1 1.2
3.1 store 0 7 = stored
waiting 0 =
collect 1.1 = value 7
collect 2.1 = value 7
collect 1.2 = value 7
cell 0 = full 7 in block 0 of 1 i
count = 5
room = 251
failed = false
window 1 = 1 3

# A second store clashes, and the cell stays so
format 4096 16 256 = formatted
0.1 alloc i 1 = base 0
1.1 store 0 5 = stored
1.2 fetch 0 = value 5
1.3 store 0 5 = clash
1.4 fetch 0 = clash
collect 1.2 = value 5
cell 0 = clashed 5 in block 0 of 1 i

# Takers are served in their order, one by each put
-- An M cell is filled by a put and emptied by a take. Here three takes come first.
format 4096 16 256 = formatted
0.1 alloc m 1 = base 0
3.1 take 0 = waiting
1.1 take 0 = waiting
2.1 take 0 = waiting
4.1 put 0 10 = stored
4.2 put 0 20 = stored
collect 3.1 = value 10
collect 1.1 = value 20
collect 2.1 = waiting
4.3 put 0 30 = stored
collect 2.1 = value 30
cell 0 = empty in block 0 of 1 m

# A block goes to the least hole that has room for it
format 4096 16 256 = formatted
0.1 alloc i 2 = base 0
0.2 alloc i 3 = base 2
0.3 alloc m 2 = base 5
0.4 release 2 = released
0.5 alloc i 4 = base 7
0.6 alloc i 3 = base 2
-- Cell 3 is inside a block, and cell 5 is one for takes and puts.
0.7 release 3 = noblock
1.1 fetch 5 = wrongkind

# A block that is waited for stays
format 4096 16 256 = formatted
0.1 alloc i 1 = base 0
1.1 fetch 0 = waiting
0.2 release 0 = stillwaiting
-- The block is still there, and the fetch waits at its cell as before.
cell 0 = waiting in block 0 of 1 i
waiting 0 = 1.1
collect 1.1 = waiting
2.1 store 0 9 = stored
0.3 release 0 = released
cell 0 = free
-- A repeat is answered as at first. The fetch was answered before its block went.
0.2 release 0 = stillwaiting
1.2 fetch 0 = nocell
collect 1.1 = value 9
0.4 alloc i 1 = base 0
-- What was answered stands. The new block's cell is another one, at which a new fetch waits.
1.3 fetch 0 = waiting
waiting 0 = 1.3
collect 1.1 = value 9

# A reset empties the cells of a block, which begin anew
format 4096 16 256 = formatted
0.1 alloc i 2 = base 0
1.1 store 0 5 = stored
1.2 store 0 6 = clash
0.2 reset 0 = cleared
cell 0 = empty in block 0 of 2 i
1.3 fetch 0 = waiting
0.3 reset 0 = stillwaiting
waiting 0 = 1.3
1.4 store 0 6 = stored
collect 1.3 = value 6
0.4 reset 1 = noblock
count = 8
-- Sent again it is told what it was told, and empties nothing.
0.2 reset 0 = cleared
cell 0 = full 6 in block 0 of 2 i
count = 8
close = closed
slot 3 = a5 01 09 00 00 00 00 00 03 00 00 00 00 00 00 00 02 00*47
open = opened
count = 8
collect 0.2 = cleared
cell 0 = full 6 in block 0 of 2 i
-- And so it is on the pages.
60 turns = began, page 0..51, synced, in force, swept x3, idle x2; room 248 x55, 251, 254, 256 x3
close = closed
open = opened
count = 8
collect 0.2 = cleared
0.3 reset 0 = stillwaiting
0.4 reset 1 = noblock
0.5 reset 0 = cleared
cell 0 = empty in block 0 of 2 i

# Blocks and addresses have edges
format 4096 16 256 = formatted
0.1 alloc i 4096 = base 0
0.2 alloc i 1 = nospace
0.3 alloc i 0 = badlength
0.4 alloc m 4097 = nospace
1.1 fetch 4096 = nocell
1.2 fetch 4294967295 = nocell

# A great memory serves
format 65536 64 4096 in 5120000 bytes = formatted
0.1 alloc i 65536 = base 0
63.1 store 65535 18446744073709551615 = stored
63.2 fetch 65535 = value 18446744073709551615

# The greatest memory serves
format 1048576 64 4096 in 68034560 bytes = formatted
0.1 alloc i 1048576 = base 0
63.1 store 1048575 18446744073709551615 = stored
63.2 fetch 1048575 = value 18446744073709551615
63.3 fetch 1048576 = nocell
0.2 alloc m 1 = nospace
0.3 reset 0 = cleared
63.4 fetch 1048575 = waiting
waiting 1048575 = 63.4

# The least memory serves
format 1 1 16 in 33792 bytes = formatted
0.1 alloc i 1 = base 0
0.2 fetch 0 = waiting
0.3 store 0 0 = stored
1.1 fetch 0 = refused 5 NoElement
collect 0.2 = value 0
