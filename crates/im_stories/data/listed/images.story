-- The words of these stories, besides the commands, are:
-- format 2 2 16 = formatted     a new image of these cells, elements and slots, and a file of its length
-- open = opened                 opens the image of the file's bytes
-- steps = 63 at 40961, sync     the steps of the last call: so many bytes at a place, or a sync
-- carry out = 4                 carries out all of them on the file, or `carry out 2` the first two: how many
-- crash = crashed               ends the program; what wasn't synced is lost
-- bytes 0 4 = 00*4              bytes of the file at a place
-- `turn`, `sweep`, `collect`, `window`, `room`, `count`, `lost` and `lose` of the image
-- An image of 2 cells, 2 elements and 16 slots has areas of 4 pages. Its journal is at 40960, its length 41984.

# An image is opened from the bytes of its file, which keep all that was served
format 2 2 16 = formatted
steps = 41984 at 0, sync, 1 at 0, sync
carry out = 4
bytes 0 1 = a5
0.1 alloc i 1 = base 0
steps = 63 at 40961, sync, 1 at 40960, sync
carry out = 4
1.1 fetch 0 = waiting
steps = 63 at 41025, sync, 1 at 41024, sync
carry out = 4
bytes 40960 4 = a5 01 01 00
crash = crashed
open = opened
steps = sync
carry out = 1
count = 2
room = 14
bytes 40960 4 = a5 01 01 00
collect 1.1 = waiting
0.2 store 0 7 = stored
steps = 63 at 41089, sync, 1 at 41088, sync
carry out = 4
collect 1.1 = value 7
-- Once more, and nothing is lost either.
open = opened
steps = sync
count = 3
collect 1.1 = value 7
window 0 = 1 3
-- A request that is sent again lists nothing.
1.1 fetch 0 = value 7
steps =
count = 3

# A crash before the one step of an opening, or behind it, leaves what was there
format 2 2 16 = formatted
carry out = 4
0.1 alloc m 1 = base 0
carry out = 4
0.2 put 0 5 = stored
carry out = 4
open = opened
steps = sync
crash = crashed
open = opened
count = 2
carry out = 1
crash = crashed
open = opened
count = 2
1.1 take 0 = value 5

# A crash at each step of a call leaves the memory before it or after it, and the request acts once
format 2 2 16 = formatted
carry out = 4
0.1 alloc m 1 = base 0
carry out = 4
0.2 put 0 5 = stored
carry out = 4
1.1 take 0 = value 5
carry out 0 = 0
crash = crashed
open = opened
count = 2
1.1 take 0 = value 5
carry out 1 = 1
crash = crashed
open = opened
count = 2
1.1 take 0 = value 5
carry out 2 = 2
crash = crashed
open = opened
count = 2
1.1 take 0 = value 5
carry out 3 = 3
-- The gate is written and not synced: this crash loses it.
crash = crashed
open = opened
count = 2
1.1 take 0 = value 5
carry out 4 = 4
crash = crashed
open = opened
count = 3
1.1 take 0 = value 5
steps =
-- An opening without a crash finds a gate that was written, too.
1.2 take 0 = waiting
carry out 3 = 3
open = opened
count = 4
collect 1.2 = waiting

# A checkpoint, a crash behind it, and slots that are free again
format 2 2 16 = formatted
carry out = 4
0.1 alloc i 1 = base 0
carry out = 4
1.1 fetch 0 = waiting
carry out = 4
room = 14
turn = turned
steps =
-- The four pages of the other area, at 24576, then a sync for them.
turn = turned
steps = 4096 at 24576
carry out = 1
turn = turned
steps = 4096 at 28672
carry out = 1
turn = turned
steps = 4096 at 32768
carry out = 1
turn = turned
steps = 4096 at 36864
carry out = 1
turn = turned
steps = sync
carry out = 1
-- The other header, behind its gate.
turn = turned
steps = 63 at 4097, sync, 1 at 4096, sync
carry out = 4
crash = crashed
open = opened
steps = sync
carry out = 1
count = 2
room = 14
-- The two slots whose commands the pages hold.
sweep 1 = 1
steps = 1 at 40960, sync
carry out = 2
room = 15
sweep 16 = 1
steps = 1 at 41024, sync
carry out = 2
room = 16
sweep 16 = 0
steps =
collect 1.1 = waiting
crash = crashed
open = opened
count = 2
room = 16
collect 1.1 = waiting

# A step that the caller couldn't make
format 2 2 16 = formatted
carry out = 4
0.1 alloc i 1 = base 0
lost = false
lose =
lost = true
steps =
0.2 store 0 7 = refused 8 Device
collect 0.1 = refused 8 Device
window 0 = refused 8 Device
turn = refused 8 Device
sweep 1 = refused 8 Device
-- Whether the command is in the file is for the next opening to say.
crash = crashed
open = opened
count = 0
0.1 alloc i 1 = base 0
count = 1

# What is no image isn't opened
open = refused 12 WrongLength
format 2 2 16 = formatted
open = refused 13 NoHeader
