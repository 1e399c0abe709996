# The example of the document, whose lines are asked one by one
disk 450560 = 450560 bytes
format 4096 16 256 = formatted
script 0.1 alloc i 2 / 1.1 fetch 0 / 2.1 store 0 42 / 2.1 store 0 42 / 1.1 fetch 1 / = 5 lines
script collect 1.1 / confirm 1 2 / window 1 / = 8 lines
-- Four calls for each of the four commands; a repeat, a refusal and what is only asked make none.
talk slowly = 0, 16 calls
printed = 8 lines
printed 0 = 0.1 base 0
printed 1 = 1.1 waiting
printed 2 = 2.1 stored
printed 3 = 2.1 stored
printed 4 = 1.1 refused 4 Mismatch
printed 5 = 1.1 value 42
printed 6 = 1 confirmed 2
printed 7 = 1 window 2 2
count = 4

# The same lines in the buffer together are answered alike, with fewer calls
disk 450560 = 450560 bytes
format 4096 16 256 = formatted
script 0.1 alloc i 2 / 1.1 fetch 0 / 2.1 store 0 42 / 2.1 store 0 42 / 1.1 fetch 1 / = 5 lines
script collect 1.1 / confirm 1 2 / window 1 / = 8 lines
-- The first five are a group that puts three commands: six calls. The confirmation stands alone, and takes four.
talk = 0, 10 calls
printed = 8 lines
printed 0 = 0.1 base 0
printed 1 = 1.1 waiting
printed 2 = 2.1 stored
printed 3 = 2.1 stored
printed 4 = 1.1 refused 4 Mismatch
printed 5 = 1.1 value 42
printed 6 = 1 confirmed 2
printed 7 = 1 window 2 2
count = 4

# A request that waited is told again where it is watched, right after the line that brought its answer
disk 450560 = 450560 bytes
format 4096 16 256 = formatted
script 0.1 alloc i 1 / 1.1 fetch 0 / 2.1 fetch 0 / 3.1 store 0 42 / 3.1 store 0 42 / 4.1 fetch 0 / = 6 lines
-- The first three are a group, the store is none: six calls and four, and four for the last fetch.
talk watched = 0, 14 calls
printed = 8 lines
printed 0 = 0.1 base 0
printed 1 = 1.1 waiting
printed 2 = 2.1 waiting
printed 3 = 3.1 stored
printed 4 = 1.1 now value 42
printed 5 = 2.1 now value 42
-- Sent again it brings no answer.
printed 6 = 3.1 stored
printed 7 = 4.1 value 42

# A put resumes one taker, the first that came
disk 450560 = 450560 bytes
format 4096 16 256 = formatted
script 0.1 alloc m 1 / 1.1 take 0 / 2.1 take 0 / 3.1 put 0 7 / 3.2 put 0 8 / 3.3 put 0 9 / = 6 lines
talk slowly watched = 0, 24 calls
printed = 8 lines
printed 0 = 0.1 base 0
printed 1 = 1.1 waiting
printed 2 = 2.1 waiting
printed 3 = 3.1 stored
printed 4 = 1.1 now value 7
printed 5 = 3.2 stored
printed 6 = 2.1 now value 8
-- Nobody waits any more: the cell is full.
printed 7 = 3.3 stored

# A reset empties the cells of a block, and answers nobody who waits
disk 450560 = 450560 bytes
format 4096 16 256 = formatted
script 0.1 alloc i 2 / 1.1 store 0 5 / 1.2 store 0 6 / 0.2 reset 0 / 1.3 fetch 0 / 0.3 reset 0 / 1.4 store 0 6 / = 7 lines
script collect 1.3 / 0.4 reset 1 / 0.2 reset 0 / 0.2 release 0 / = 11 lines
talk slowly watched = 0, 32 calls
printed = 12 lines
printed 0 = 0.1 base 0
printed 1 = 1.1 stored
printed 2 = 1.2 clash
printed 3 = 0.2 cleared
printed 4 = 1.3 waiting
printed 5 = 0.3 stillwaiting
printed 6 = 1.4 stored
printed 7 = 1.3 now value 6
printed 8 = 1.3 value 6
printed 9 = 0.4 noblock
-- Sent again it is told what it was told.
printed 10 = 0.2 cleared
printed 11 = 0.2 refused 4 Mismatch
count = 8

# A reset may stand in a group, where it is watched too
disk 450560 = 450560 bytes
format 4096 16 256 = formatted
script 0.1 alloc i 2 / 1.1 store 0 5 / 2.1 fetch 0 / 3.1 reset 0 / 4.1 fetch 0 / 5.1 reset 0 / = 6 lines
-- Where it is watched, the store is no member behind the alloc that makes its cell: four calls, and eight for the others.
talk watched = 0, 12 calls
printed = 6 lines
printed 0 = 0.1 base 0
printed 1 = 1.1 stored
printed 2 = 2.1 value 5
printed 3 = 3.1 cleared
printed 4 = 4.1 waiting
printed 5 = 5.1 stillwaiting
count = 6

# Who waited when the image was opened is told too
disk 450560 = 450560 bytes
format 4096 16 256 = formatted
script 0.1 alloc i 1 / 1.1 fetch 0 / = 2 lines
talk = 0, 5 calls
script 2.1 store 0 3 / = 1 lines
talk watched = 0, 4 calls
printed = 2 lines
printed 0 = 2.1 stored
printed 1 = 1.1 now value 3

# Not watched, nobody is told
disk 450560 = 450560 bytes
format 4096 16 256 = formatted
script 0.1 alloc i 1 / 1.1 fetch 0 / 2.1 store 0 3 / = 3 lines
talk = 0, 6 calls
printed = 3 lines
printed 2 = 2.1 stored

# Requests of one element are a group
disk 450560 = 450560 bytes
format 4096 16 256 = formatted
script 1.1 fetch 0 / 1.2 fetch 1 / 1.3 fetch 2 / = 3 lines
talk = 0, 6 calls
printed = 3 lines
printed 0 = 1.1 nocell
printed 1 = 1.2 nocell
printed 2 = 1.3 nocell
count = 3

# A group has 16 members at most
disk 450560 = 450560 bytes
format 4096 16 256 = formatted
numbered 1 to 18 1.@ fetch 0 / = 18 lines
-- 19 calls for sixteen, and five for two.
talk = 0, 24 calls
printed = 18 lines
printed 0 to 17 = 1.1 to 1.18 nocell
count = 18

# Confirmations are members of a group
disk 450560 = 450560 bytes
format 4096 16 256 = formatted
script 0.1 alloc i 2 / 1.1 store 0 5 / confirm 0 2 / 1.2 store 1 6 / confirm 1 2 / 2.1 fetch 1 / confirm 0 2 / = 7 lines
script window 1 / = 8 lines
-- Six commands are put on the disk: the last confirmation drops nothing more.
talk = 0, 9 calls
printed = 8 lines
printed 0 = 0.1 base 0
printed 1 = 1.1 stored
printed 2 = 0 confirmed 2
printed 3 = 1.2 stored
printed 4 = 1 confirmed 2
printed 5 = 2.1 value 6
printed 6 = 0 confirmed 2
printed 7 = 1 window 2 3
count = 6

# A group ends before the confirmation of a fetch that is in it, and the lines behind it are the next group
disk 450560 = 450560 bytes
format 4096 16 256 = formatted
script 0.1 alloc i 1 / 1.1 store 0 5 / 2.1 fetch 0 / confirm 2 2 / 2.2 fetch 0 / mend / = 6 lines
-- Six calls for three, five for two.
talk = 0, 11 calls
printed = 6 lines
printed 0 = 0.1 base 0
printed 1 = 1.1 stored
printed 2 = 2.1 value 5
printed 3 = 2 confirmed 2
printed 4 = 2.2 value 5
printed 5 = error 6: 'mend', where E.N, collect, entry, confirm, window, elements, cell, cells, waiting, block, blocks, stat, room, turn, count, about, backup, help or quit is expected
count = 5

# A group of one fetch, whose confirmation stands behind it, and so on
disk 450560 = 450560 bytes
format 4096 16 256 = formatted
script 1.1 fetch 0 / confirm 1 2 / 1.2 fetch 0 / confirm 1 3 / = 4 lines
-- The fetch takes four calls. The first confirmation and the next fetch are a group, of five. The last one takes four.
talk = 0, 13 calls
printed = 4 lines
printed 0 = 1.1 nocell
printed 1 = 1 confirmed 2
printed 2 = 1.2 nocell
printed 3 = 1 confirmed 3
count = 4

# Members of one element are refused within a group, each by the window that those before it leave
disk 450560 = 450560 bytes
format 4096 16 256 = formatted
script 1.1 store 0 5 / 1.3 store 0 5 / 1.2 store 0 6 / confirm 1 2 / 1.1 store 0 5 / confirm 1 9 / 1.2 store 0 7 / 1.3 store 0 7 / = 8 lines
-- Four commands are put on the disk.
talk = 0, 7 calls
printed = 8 lines
printed 0 = 1.1 nocell
printed 1 = 1.3 refused 1 Gap
printed 2 = 1.2 nocell
printed 3 = 1 confirmed 2
printed 4 = 1.1 refused 2 Forgotten
printed 5 = 1 refused 1 Gap
printed 6 = 1.2 refused 4 Mismatch
printed 7 = 1.3 nocell
count = 4

# Where it is watched, a store is a member, but not behind a request that names its cell
disk 450560 = 450560 bytes
format 4096 16 256 = formatted
script 0.1 alloc i 2 / 1.1 fetch 0 / 1.2 fetch 1 / confirm 0 2 / 2.1 store 0 7 / 1.3 fetch 0 / confirm 2 2 / = 7 lines
-- Seven calls for four, six for three.
talk watched = 0, 13 calls
printed = 8 lines
printed 0 = 0.1 base 0
printed 1 = 1.1 waiting
printed 2 = 1.2 waiting
printed 3 = 0 confirmed 2
printed 4 = 2.1 stored
printed 5 = 1.1 now value 7
printed 6 = 1.3 value 7
printed 7 = 2 confirmed 2
count = 7

# Where it is watched, stores and puts are a group, and each is followed by those that it answers
disk 450560 = 450560 bytes
format 4096 16 256 = formatted
script 0.1 alloc i 2 / 0.2 alloc m 3 / 1.1 fetch 0 / 1.2 take 2 / 2.1 take 2 / 3.1 fetch 0 / 3.2 take 3 / = 7 lines
talk watched = 0, 10 calls
script 4.1 put 2 5 / 4.2 store 0 6 / 4.3 put 3 7 / 4.4 store 1 8 / 4.4 store 1 8 / 4.5 put 2 9 / 4.6 put 3 7 / = 7 lines
-- Seven calls for four. The line that is sent again is served alone, with none, and then two are a group, of five.
talk watched = 0, 12 calls
printed = 12 lines
printed 0 = 4.1 stored
printed 1 = 1.2 now value 5
printed 2 = 4.2 stored
printed 3 = 1.1 now value 6
printed 4 = 3.1 now value 6
printed 5 = 4.3 stored
printed 6 = 3.2 now value 7
printed 7 = 4.4 stored
printed 8 = 4.4 stored
printed 9 = 4.5 stored
printed 10 = 2.1 now value 9
printed 11 = 4.6 stored
count = 13

# Where it is watched, a store that is refused answers nobody
disk 450560 = 450560 bytes
format 4096 16 256 = formatted
script 0.1 alloc i 2 / 1.1 fetch 0 / 1.2 fetch 1 / = 3 lines
talk watched = 0, 6 calls
script 2.2 store 0 5 / 16.1 store 0 5 / 2.1 store 1 6 / = 3 lines
talk watched = 0, 4 calls
printed = 4 lines
printed 0 = 2.2 refused 1 Gap
printed 1 = 16.1 refused 5 NoElement
printed 2 = 2.1 stored
printed 3 = 1.2 now value 6
count = 4

# A line that is no command ends a group, and is answered in its place
disk 450560 = 450560 bytes
format 4096 16 256 = formatted
script 1.1 fetch 0 / 2.1 fetch 0 / count / 3.1 fetch 0 / 4.1 fetch 0 / 5.1 fetch 0 / = 6 lines
-- Two commands, five calls; three, six.
talk = 0, 11 calls
printed = 6 lines
printed 0 = 1.1 nocell
printed 1 = 2.1 nocell
printed 2 = count 2
printed 5 = 5.1 nocell

# Each such line tells the memory after the lines before it
disk 450560 = 450560 bytes
format 4096 16 256 = formatted
script room / collect 1.1 / 0.1 alloc i 2 / window 0 / 1.1 store 0 5 / collect 1.1 / collect 1.2 / entry 1.1 / window 1 / = 9 lines
script 1.3 store 1 5 / window 1 / 2.1 store 1 6 / count / room / 2.2 fetch 0 / about / confirm 2 3 / window 2 / = 18 lines
-- Five commands, each with lines behind it that are none: four calls each.
talk = 0, 20 calls
printed = 18 lines
printed 0 = room 256
printed 1 = 1.1 refused 1 Gap
printed 2 = 0.1 base 0
printed 3 = 0 window 1 2
printed 4 = 1.1 stored
printed 5 = 1.1 stored
printed 6 = 1.2 refused 1 Gap
printed 7 = 1.1 entry store 0 5 -> stored
printed 8 = 1 window 1 2
printed 9 = 1.3 refused 1 Gap
printed 10 = 1 window 1 2
printed 11 = 2.1 stored
printed 12 = count 3
printed 13 = room 253
printed 14 = 2.2 value 5
printed 15 = about version 2 cells 4096 elements 16 slots 256 count 4 room 252
printed 16 = 2 confirmed 3
printed 17 = 2 window 3 3

# A cell is shown with its kind and state, and those that wait at it in their order
disk 450560 = 450560 bytes
format 4096 16 256 = formatted
script 0.1 alloc i 3 / 0.2 alloc m 2 / 1.1 store 0 42 / 1.2 store 1 5 / 1.3 store 1 6 / 2.1 fetch 2 / 1.4 fetch 2 / 3.1 take 4 / = 8 lines
script cell 0 / cell 1 / cell 2 / cell 3 / cell 4 / cell 5 / cell 4095 / cell 4096 / cell 4294967295 / = 17 lines
-- Four calls for each of the eight commands; a look makes none.
talk slowly = 0, 32 calls
printed = 17 lines
printed 8 = cell 0 i full 42
printed 9 = cell 1 i clashed 5
printed 10 = cell 2 i waiting 2.1 1.4
printed 11 = cell 3 m empty
printed 12 = cell 4 m waiting 3.1
printed 13 = cell 5 nocell
printed 14 = cell 4095 nocell
printed 15 = cell 4096 nocell
printed 16 = cell 4294967295 nocell
count = 8

# A block is shown for each of its cells, as long as it is there
disk 450560 = 450560 bytes
format 4096 16 256 = formatted
script 0.1 alloc i 3 / 0.2 alloc m 2 / block 2 / 0.3 release 0 / block 3 / block 4 / block 0 / block 5 / block 4096 / = 9 lines
talk slowly = 0, 12 calls
printed = 9 lines
printed 2 = block 0 i 3
printed 3 = 0.3 released
printed 4 = block 3 m 2
printed 5 = block 3 m 2
printed 6 = block 0 noblock
printed 7 = block 5 noblock
printed 8 = block 4096 noblock

# Blocks, cells of each state, and entries are counted
disk 450560 = 450560 bytes
format 4096 16 256 = formatted
script stat / 0.1 alloc i 3 / 0.2 alloc m 2 / 1.1 store 0 42 / 1.2 store 1 5 / 1.3 store 1 6 / 2.1 fetch 2 / 1.4 fetch 2 / 3.1 take 4 / = 9 lines
script stat / confirm 0 3 / stat / 4.1 store 2 7 / stat / 3.2 put 3 1 / 0.3 release 0 / stat / = 17 lines
-- Eight commands, the confirmation and three more.
talk slowly = 0, 48 calls
printed = 17 lines
printed 0 = stat cells 4096 blocks 0 empty 0 waiting 0 full 0 clashed 0 kept 0 deferred 0
printed 9 = stat cells 4096 blocks 2 empty 1 waiting 2 full 1 clashed 1 kept 8 deferred 3
printed 10 = 0 confirmed 3
printed 11 = stat cells 4096 blocks 2 empty 1 waiting 2 full 1 clashed 1 kept 6 deferred 3
printed 12 = 4.1 stored
-- It answered 2.1 and 1.4; the take waits still.
printed 13 = stat cells 4096 blocks 2 empty 1 waiting 1 full 2 clashed 1 kept 7 deferred 1
printed 14 = 3.2 stored
printed 15 = 0.3 released
printed 16 = stat cells 4096 blocks 1 empty 0 waiting 1 full 1 clashed 0 kept 9 deferred 1

# A list has each cell as `cell` shows it, each block as `block`, each element as `window`
disk 33792 = 33792 bytes
format 1 1 16 = formatted
script cells 0-0 / waiting / blocks / elements / 0.1 alloc i 1 / cells 0-9 / waiting / blocks / elements / cells 1-9 / = 10 lines
talk = 0, 4 calls
printed = 10 lines
printed 0 = cells 1, cell 0 nocell
printed 1 = waiting 0
printed 2 = blocks 0
printed 3 = elements 1, 0 window 1 1
printed 5 = cells 1, cell 0 i empty
printed 6 = waiting 0
printed 7 = blocks 1, block 0 i 1
printed 8 = elements 1, 0 window 1 2
printed 9 = cells 0

# A list is of the memory behind all commands ahead of it, and ends at the last cell
disk 327680 = 327680 bytes
format 4096 4 256 = formatted
script 0.1 alloc i 3 / 0.2 alloc m 2 / 1.1 store 0 42 / 1.2 store 1 5 / 1.3 store 1 6 / 2.1 fetch 2 / 1.4 fetch 2 / 3.1 take 4 / = 8 lines
script cells 0-5 / cells 2-2 / cells 4094-4294967295 / cells 4096-4097 / waiting / blocks / elements / = 15 lines
script 0.3 release 0 / 0.4 reset 3 / 1.5 store 2 7 / 0.5 release 0 / confirm 1 6 / waiting / blocks / elements / = 23 lines
talk slowly = 0, 52 calls
printed = 23 lines
printed 8 = cells 6, cell 0 i full 42, cell 1 i clashed 5, cell 2 i waiting 2.1 1.4, cell 3 m empty, cell 4 m waiting 3.1, cell 5 nocell
printed 9 = cells 1, cell 2 i waiting 2.1 1.4
printed 10 = cells 2, cell 4094 nocell, cell 4095 nocell
printed 11 = cells 0
printed 12 = waiting 2, cell 2 i waiting 2.1 1.4, cell 4 m waiting 3.1
printed 13 = blocks 2, block 0 i 3, block 3 m 2
printed 14 = elements 4, 0 window 1 3, 1 window 1 5, 2 window 1 2, 3 window 1 2
printed 15 = 0.3 stillwaiting
printed 16 = 0.4 stillwaiting
printed 18 = 0.5 released
printed 19 = 1 confirmed 6
printed 20 = waiting 1, cell 4 m waiting 3.1
printed 21 = blocks 1, block 3 m 2
printed 22 = elements 4, 0 window 1 6, 1 window 6 6, 2 window 1 2, 3 window 1 2

# A list shows what a group brought that stands ahead of it in the buffer
disk 450560 = 450560 bytes
format 4096 16 256 = formatted
script 0.1 alloc m 2 / 1.1 take 1 / waiting / 2.1 put 1 9 / waiting / cells 0-1 / = 6 lines
talk = 0, 9 calls
printed = 6 lines
printed 2 = waiting 1, cell 1 m waiting 1.1
printed 3 = 2.1 stored
printed 4 = waiting 0
printed 5 = cells 2, cell 0 m empty, cell 1 m empty

# A line that looks shows the memory behind the commands ahead of it
disk 450560 = 450560 bytes
format 4096 16 256 = formatted
script 0.1 alloc i 2 / 1.1 fetch 0 / = 2 lines
talk = 0, 5 calls
script cell 0 / 1.2 fetch 1 / cell 1 / cell 0 / 2.1 fetch 1 / block 0 / 3.1 store 0 5 / cell 0 / stat / 3.2 store 1 6 / = 10 lines
-- Four groups of one command.
talk = 0, 16 calls
printed = 10 lines
printed 0 = cell 0 i waiting 1.1
printed 1 = 1.2 waiting
printed 2 = cell 1 i waiting 1.2
printed 3 = cell 0 i waiting 1.1
printed 4 = 2.1 waiting
printed 5 = block 0 i 2
printed 6 = 3.1 stored
printed 7 = cell 0 i full 5
printed 8 = stat cells 4096 blocks 1 empty 0 waiting 1 full 1 clashed 0 kept 5 deferred 2
printed 9 = 3.2 stored
count = 6

# A look ends a group, though the commands ahead don't reach its cell
disk 450560 = 450560 bytes
format 4096 16 256 = formatted
script 0.1 alloc i 8 / cell 7 / 1.1 store 0 1 / cell 0 / block 9 / 1.2 store 1 2 / help / 1.3 fetch 2 / cell 2 / 2.1 store 3 4 / = 10 lines
-- Five groups of one command.
talk = 0, 20 calls
printed = 10 lines
printed 1 = cell 7 i empty
printed 3 = cell 0 i full 1
printed 4 = block 9 noblock
printed 8 = cell 2 i waiting 1.3

# Lines that look stand together behind a group, and none of them makes a call
disk 450560 = 450560 bytes
format 4096 16 256 = formatted
script 0.1 alloc i 2 / 1.1 store 0 5 / cell 0 / cell 1 / block 0 / stat / count / = 7 lines
talk = 0, 5 calls
printed = 7 lines
printed 2 = cell 0 i full 5
printed 3 = cell 1 i empty
printed 6 = count 2

# Where it is watched, a line that looks is told behind those that were answered
disk 450560 = 450560 bytes
format 4096 16 256 = formatted
script 0.1 alloc i 1 / 1.1 fetch 0 / = 2 lines
talk = 0, 5 calls
script cell 0 / 2.1 store 0 3 / cell 0 / 3.1 fetch 0 / cell 9 / = 5 lines
-- Two groups of one command.
talk watched = 0, 8 calls
printed = 6 lines
printed 0 = cell 0 i waiting 1.1
printed 1 = 2.1 stored
printed 2 = 1.1 now value 3
printed 3 = cell 0 i full 3
printed 4 = 3.1 value 3
printed 5 = cell 9 nocell

# The lines of a dialogue are told in one line
disk 450560 = 450560 bytes
format 4096 16 256 = formatted
script help / help me / cell / cell x / cell 4294967296 / block 1 2 / stat 1 / cells 1 / blocks 0 / waiting 1.1 / = 10 lines
script elements 1 / cells / cells 2-1 / cells 0-4294967296 / cells 1-2-3 / cells -1 / = 16 lines
talk = 0, 0 calls
printed = 16 lines
printed 0 = help E.N alloc i LENGTH, E.N alloc m LENGTH, E.N release A, E.N reset A, E.N fetch A, E.N store A VALUE, E.N take A, E.N put A VALUE, collect E.N, entry E.N, confirm E UPTO, window E, elements, cell A, cells A-B, waiting, block A, blocks, stat, room, turn, count, about, backup NAME, help, quit
printed 1 = error 2: 'me', where the end of the line is expected
printed 2 = error 3: the line ends, where an address from 0 to 4294967295 is expected
printed 3 = error 4: 'x', where an address from 0 to 4294967295 is expected
printed 4 = error 5: '4294967296', where an address from 0 to 4294967295 is expected
printed 5 = error 6: '2', where the end of the line is expected
printed 6 = error 7: '1', where the end of the line is expected
printed 7 = error 8: '1', where a span of addresses in order, as 0-99, is expected
printed 8 = error 9: '0', where the end of the line is expected
printed 9 = error 10: '1.1', where the end of the line is expected
printed 10 = error 11: '1', where the end of the line is expected
printed 11 = error 12: the line ends, where a span of addresses in order, as 0-99, is expected
printed 12 = error 13: '2-1', where a span of addresses in order, as 0-99, is expected
printed 13 = error 14: '0-4294967296', where a span of addresses in order, as 0-99, is expected
printed 14 = error 15: '1-2-3', where a span of addresses in order, as 0-99, is expected
printed 15 = error 16: '-1', where a span of addresses in order, as 0-99, is expected

# An entry that waits is asked for between the puts of a group, before and behind the one that answers it
disk 450560 = 450560 bytes
format 4096 16 256 = formatted
script 0.1 alloc m 3 / 1.1 take 0 / 2.1 take 1 / = 3 lines
talk = 0, 6 calls
script 3.1 put 1 5 / collect 2.1 / collect 1.1 / 3.2 put 2 6 / collect 1.1 / 3.3 put 0 7 / collect 1.1 / 3.4 put 1 8 / = 8 lines
-- Four groups of one command.
talk = 0, 16 calls
printed = 8 lines
printed 0 = 3.1 stored
printed 1 = 2.1 value 5
printed 2 = 1.1 waiting
printed 3 = 3.2 stored
printed 4 = 1.1 waiting
printed 5 = 3.3 stored
printed 6 = 1.1 value 7
printed 7 = 3.4 stored
count = 7

# What a line tells that only looks stays as it was if its entry is confirmed or asked behind it
disk 450560 = 450560 bytes
format 4096 16 256 = formatted
script 1.1 fetch 0 / collect 1.1 / collect 1.2 / 1.2 fetch 0 / collect 1.1 / 2.1 fetch 0 / confirm 1 2 / collect 1.1 / = 8 lines
-- Four calls for one command, five for two, four for the confirmation.
talk = 0, 13 calls
printed = 8 lines
printed 0 = 1.1 nocell
printed 1 = 1.1 nocell
printed 2 = 1.2 refused 1 Gap
printed 3 = 1.2 nocell
printed 4 = 1.1 nocell
printed 5 = 2.1 nocell
printed 6 = 1 confirmed 2
printed 7 = 1.1 refused 2 Forgotten

# An element that isn't there is refused within a group, and the others are served
disk 450560 = 450560 bytes
format 4096 16 256 = formatted
script 1.1 fetch 0 / 16.1 fetch 0 / 2.2 fetch 0 / 3.1 fetch 0 / = 4 lines
-- Two commands are put on the disk.
talk = 0, 5 calls
printed = 4 lines
printed 0 = 1.1 nocell
printed 1 = 16.1 refused 5 NoElement
printed 2 = 2.2 refused 1 Gap
printed 3 = 3.1 nocell

# Lines that aren't in the grammar are numbered, and change nothing
disk 450560 = 450560 bytes
format 4096 16 256 = formatted
script 1.1 fetch 0 / 2.1 fetch 0 / mend / 1.2 get 0 / collect 1 / confirm 1 / window / room now / = 8 lines
talk = 0, 5 calls
printed = 8 lines
printed 2 = error 3: 'mend', where E.N, collect, entry, confirm, window, elements, cell, cells, waiting, block, blocks, stat, room, turn, count, about, backup, help or quit is expected
printed 3 = error 4: 'get', where alloc, fetch, store, take, put, release or reset is expected
printed 4 = error 5: '1', where E.N, with an element's number E from 0 to 65535 and a request's number N, is expected
printed 5 = error 6: the line ends, where a request's number is expected
printed 6 = error 7: the line ends, where an element's number from 0 to 65535 is expected
printed 7 = error 8: 'now', where the end of the line is expected

# The word at fault is named, and what was expected of it
disk 450560 = 450560 bytes
format 4096 16 256 = formatted
script 99999.1 fetch 0 / 1.1 alloc i 1\r / 1.1 alloc i / 1.1 alloc j 1 / 1.1 fetch x / 1.1 store 0 -1 / = 6 lines
script 1.1 fetch 0 0 / 1.1 / collect 1.x / confirm x 1 / window 65536 / 1.1 fetch é / / # x / = 14 lines
talk = 0, 0 calls
printed = 14 lines
printed 0 = error 1: '99999.1', where E.N, with an element's number E from 0 to 65535 and a request's number N, is expected
printed 1 = error 2: the line ends in a carriage return: is it a Windows file?
printed 2 = error 3: the line ends, where a number from 0 to 4294967295 is expected
printed 3 = error 4: 'j', where i or m is expected
printed 4 = error 5: 'x', where an address from 0 to 4294967295 is expected
printed 5 = error 6: '-1', where a number from 0 to 18446744073709551615 is expected
printed 6 = error 7: '0', where the end of the line is expected
printed 7 = error 8: the line ends, where alloc, fetch, store, take, put, release or reset is expected
printed 8 = error 9: '1.x', where E.N, with an element's number E from 0 to 65535 and a request's number N, is expected
printed 9 = error 10: 'x', where an element's number from 0 to 65535 is expected
printed 10 = error 11: '65536', where an element's number from 0 to 65535 is expected
printed 11 = error 12: '\xc3\xa9', where ASCII is expected
printed 12 = error 13: the line ends, where E.N, collect, entry, confirm, window, elements, cell, cells, waiting, block, blocks, stat, room, turn, count, about, backup, help or quit is expected
printed 13 = error 14: '#', where E.N, collect, entry, confirm, window, elements, cell, cells, waiting, block, blocks, stat, room, turn, count, about, backup, help or quit is expected

# A line may have 4,096 bytes; a longer one is told so, and read on to its line feed
disk 450560 = 450560 bytes
format 4096 16 256 = formatted
script 1.1 fetch 0 / = 1 lines
numbered 1 to 1024 xxxx = 1 lines
script / = 2 lines
numbered 1 to 1024 xxxx = 2 lines
script x / 2.1 fetch 0 / = 4 lines
-- Two commands, each by itself.
talk = 0, 8 calls
printed = 4 lines
printed 0 = 1.1 nocell
printed 1 = error 2: 'xxxxxxxxxxxxxxxxxxxxxxxxxxxxxxxx..', where E.N, collect, entry, confirm, window, elements, cell, cells, waiting, block, blocks, stat, room, turn, count, about, backup, help or quit is expected
printed 2 = error 3: the line is too long
printed 3 = 2.1 nocell

# The same read a byte at a time, with a request that spaces make too long, and a line that goes on to the end of the input
disk 450560 = 450560 bytes
format 4096 16 256 = formatted
numbered 1 to 1022 ~~~~ = 0 lines
script 1.1~fetch / = 1 lines
numbered 1 to 1021 ~~~~ = 1 lines
script ~1.1~fetch~0 / = 2 lines
numbered 1 to 1021 ~~~~ = 2 lines
script ~~1.2~fetch~0 / = 3 lines
numbered 1 to 4096 xxxx = 3 lines
-- The second line alone is a request: it has 4,096 bytes, and the third one more.
talk slowly = 0, 4 calls
printed = 3 lines
printed 0 = error 1: the line is too long
printed 1 = 1.1 nocell
printed 2 = error 3: the line is too long

# What comes behind quit isn't asked
disk 450560 = 450560 bytes
format 4096 16 256 = formatted
script 1.1 fetch 0 / quit / 1.2 fetch 0 / = 3 lines
talk = 0, 4 calls
printed = 1 lines
printed 0 = 1.1 nocell

# Refusals of what is only asked
disk 450560 = 450560 bytes
format 4096 16 256 = formatted
script collect 1.1 / collect 16.1 / window 16 / confirm 1 2 / confirm 16 1 / = 5 lines
talk = 0, 0 calls
printed = 5 lines
printed 0 = 1.1 refused 1 Gap
printed 1 = 16.1 refused 5 NoElement
printed 2 = 16 refused 5 NoElement
printed 3 = 1 refused 1 Gap
printed 4 = 16 refused 5 NoElement

# A request that waits can't be confirmed
disk 450560 = 450560 bytes
format 4096 16 256 = formatted
script 0.1 alloc i 1 / 1.1 fetch 0 / confirm 1 2 / collect 1.1 / = 4 lines
-- The group ends before the confirmation: what a fetch in it comes to isn't known before it acts.
talk = 0, 5 calls
printed = 4 lines
printed 2 = 1 refused 6 NotAnswered
printed 3 = 1.1 waiting

# The disk fails within a group: none of it is answered
disk 450560 = 450560 bytes
format 4096 16 256 = formatted
script 1.1 fetch 0 / 2.1 fetch 0 / 3.1 fetch 0 / = 3 lines
talk 3 calls = 1, 4 calls
printed = 1 lines
printed 0 = refused 8 Device

# The disk fails at each call within a group with a confirmation: all of it is there, or nothing
-- Three bodies, a sync, the gate and a sync.
disk 450560 = 450560 bytes
format 4096 16 256 = formatted
script 1.1 store 0 5 / confirm 1 2 / 1.2 store 0 6 / = 3 lines
talk 0 calls = 1, 1 calls
printed = 1 lines
count = 0
script 1.1 store 0 5 / confirm 1 2 / 1.2 store 0 6 / = 3 lines
talk 1 calls = 1, 2 calls
count = 0
script 1.1 store 0 5 / confirm 1 2 / 1.2 store 0 6 / = 3 lines
talk 2 calls = 1, 3 calls
count = 0
script 1.1 store 0 5 / confirm 1 2 / 1.2 store 0 6 / = 3 lines
talk 3 calls = 1, 4 calls
count = 0
script 1.1 store 0 5 / confirm 1 2 / 1.2 store 0 6 / = 3 lines
talk 4 calls = 1, 5 calls
count = 0
script 1.1 store 0 5 / confirm 1 2 / 1.2 store 0 6 / = 3 lines
talk 5 calls = 1, 6 calls
printed = 1 lines
printed 0 = refused 8 Device
count = 3
-- Asked again, what is there isn't put again.
script 1.1 store 0 5 / confirm 1 2 / 1.2 store 0 6 / = 3 lines
talk = 0, 0 calls
printed 0 = 1.1 refused 2 Forgotten
printed 1 = 1 confirmed 2
printed 2 = 1.2 nocell
count = 3

# The disk fails in the second group of the lines that stand there: the first one is answered
disk 450560 = 450560 bytes
format 4096 16 256 = formatted
script 1.1 fetch 0 / 2.1 fetch 0 / confirm 1 2 / 1.2 fetch 0 / = 4 lines
talk 7 calls = 1, 8 calls
printed = 3 lines
printed 0 = 1.1 nocell
printed 1 = 2.1 nocell
printed 2 = refused 8 Device
count = 2

# A writer that takes a part of the answers
disk 450560 = 450560 bytes
format 4096 16 256 = formatted
script 1.1 fetch 0 / 2.1 fetch 0 / 3.1 fetch 0 / = 3 lines
-- All three are on the disk; a line and half of one were written.
talk to 15 bytes = 1, 6 calls
count = 3

# While nobody asks, room is made as soon as there is less than a half
disk 435200 = 435200 bytes
format 4096 16 16 = formatted
script 1.1 fetch 0 / 1.2 fetch 0 / 1.3 fetch 0 / 1.4 fetch 0 / 1.5 fetch 0 / 1.6 fetch 0 / 1.7 fetch 0 / = 7 lines
script 1.8 fetch 0 / room / 1.9 fetch 0 / room / = 11 lines
-- Four calls for each command. Room 8 is a half. Behind the ninth command there is room for 7: the checkpoint begins, writes
-- 52 pages, syncs by 2 calls, comes into force by 4, and sweeps three slots by 4. Then there is room for 10.
talk slowly silently = 0, 98 calls
printed = 11 lines
printed 8 = room 8
printed 9 = 1.9 nocell
printed 10 = room 10

# Where the client isn't silent no room is made
disk 435200 = 435200 bytes
format 4096 16 16 = formatted
script 1.1 fetch 0 / 1.2 fetch 0 / 1.3 fetch 0 / 1.4 fetch 0 / 1.5 fetch 0 / 1.6 fetch 0 / 1.7 fetch 0 / = 7 lines
script 1.8 fetch 0 / 1.9 fetch 0 / room / = 10 lines
talk slowly = 0, 36 calls
printed 9 = room 7

# The disk fails while nobody asks: all that was asked is answered
disk 435200 = 435200 bytes
format 4096 16 16 = formatted
script 1.1 fetch 0 / 1.2 fetch 0 / 1.3 fetch 0 / 1.4 fetch 0 / 1.5 fetch 0 / 1.6 fetch 0 / 1.7 fetch 0 / = 7 lines
script 1.8 fetch 0 / 1.9 fetch 0 / room / = 10 lines
talk slowly silently 40 calls = 1, 41 calls
printed = 10 lines
printed 8 = 1.9 nocell
printed 9 = refused 8 Device
count = 9

# A full journal is given room by turns before a command, and before a group for all of it
disk 435200 = 435200 bytes
format 4096 16 16 = formatted
script 1.1 fetch 0 / 1.2 fetch 0 / 1.3 fetch 0 / 1.4 fetch 0 / 1.5 fetch 0 / 1.6 fetch 0 / 1.7 fetch 0 / = 7 lines
script 1.8 fetch 0 / 1.9 fetch 0 / 1.10 fetch 0 / 1.11 fetch 0 / 1.12 fetch 0 / 1.13 fetch 0 / 1.14 fetch 0 / = 14 lines
script 1.15 fetch 0 / 1.16 fetch 0 / 2.1 fetch 0 / room / = 18 lines
-- Sixteen commands, then 52 pages, 2, 4, and three slots by 4, and one more command.
talk slowly = 0, 130 calls
printed 16 = 2.1 nocell
printed 17 = room 2

# Refusals of numbers are answered, and serving goes on
disk 450560 = 450560 bytes
format 4096 16 256 = formatted
script 1.1 fetch 0 / confirm 1 2 / 1.1 fetch 0 / collect 1.1 / 1.3 fetch 0 / 1.2 fetch 0 / confirm 1 1 / = 7 lines
-- Two requests and a confirmation are put on the disk; a confirmation of what is dropped already is done again by nothing.
talk slowly = 0, 12 calls
printed 0 = 1.1 nocell
printed 1 = 1 confirmed 2
printed 2 = 1.1 refused 2 Forgotten
printed 3 = 1.1 refused 2 Forgotten
printed 4 = 1.3 refused 1 Gap
printed 5 = 1.2 nocell
printed 6 = 1 confirmed 1

# A window that is full is refused, until it is confirmed
disk 450560 = 450560 bytes
format 4096 16 256 = formatted
numbered 1 to 64 1.@ fetch 0 / = 64 lines
script 1.65 fetch 0 / confirm 1 2 / 1.65 fetch 0 / window 1 / = 68 lines
-- Four groups of 16, and one that puts a confirmation and a request.
talk = 0, 81 calls
printed 0 to 63 = 1.1 to 1.64 nocell
printed 64 = 1.65 refused 3 WindowFull
printed 65 = 1 confirmed 2
printed 66 = 1.65 nocell
printed 67 = 1 window 2 66

# Each turn of the least image's checkpoint is told
disk 33792 = 33792 bytes
format 1 1 16 = formatted
script turn / 0.1 alloc i 1 / 0.2 fetch 0 / 0.3 store 0 0 / turn / turn / turn / turn / turn / turn / turn / turn / room / = 13 lines
-- Three commands take six calls, and the turns thirteen.
talk = 0, 19 calls
printed 0 = turn idle
printed 1 = 0.1 base 0
printed 2 = 0.2 waiting
printed 3 = 0.3 stored
printed 4 = turn began
printed 5 = turn page 0
printed 6 = turn page 1
printed 7 = turn page 2
printed 8 = turn synced
printed 9 = turn inforce
printed 10 = turn swept
printed 11 = turn idle
printed 12 = room 16

# What ends without a line feed isn't asked
disk 450560 = 450560 bytes
format 4096 16 256 = formatted
script 1.1 fetch 0 / 1.2 fetch = 1 lines
talk = 0, 4 calls
printed = 1 lines
count = 1

# A full journal that no checkpoint empties is told, and serving goes on
-- An image whose count of commands is the last that there is.
disk 33792 = 33792 bytes
format 1 1 16 = formatted
write 23 40 = 00
script 0.1 fetch 0 / collect 0.1 / window 0 / room / = 4 lines
talk slowly silently = 0, 0 calls
printed = 4 lines
printed 0 = 0.1 refused 7 JournalFull
printed 1 = 0.1 refused 1 Gap
printed 2 = 0 window 1 1
printed 3 = room 0

# A line is refused for want of a place once turns have made none
-- Two commands are left to the last count that there is: a group of five calls. Before the confirmation is refused,
-- room is looked for once for all that is asked: a checkpoint of three pages takes nine calls.
disk 33792 = 33792 bytes
format 1 1 16 = formatted
write 16 fe ff ff ff ff ff ff 3f = 00 00 00 00 00 00 00 00
script 0.1 fetch 0 / 0.2 store 0 5 / confirm 0 2 / 0.1 fetch 0 / 0.3 fetch 0 / room / = 6 lines
talk = 0, 14 calls
printed = 6 lines
printed 0 = 0.1 nocell
printed 1 = 0.2 nocell
printed 2 = 0 refused 7 JournalFull
printed 3 = 0.1 nocell
printed 4 = 0.3 refused 7 JournalFull
printed 5 = room 0
