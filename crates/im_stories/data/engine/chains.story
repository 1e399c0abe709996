# Three groups in a chain: each shares a sync with the one before it
-- The bodies of a group that is put ahead stand behind a closed gate: it has no effect yet, and none of its members acted.
format 4096 16 256 in 450560 bytes = formatted
behind 0.1 alloc i 2 with 1.1 fetch 0 with 2.1 store 0 42 = 3 ahead []
count = 0
room = 256
collect 0.1 = refused 1 Gap
-- The second group is judged behind the first: its fetch finds what the store there leaves.
behind 3.1 fetch 0 with 2.2 store 1 7 = 2 ahead [base 0, waiting, stored]
count = 3
room = 253
collect 1.1 = value 42
collect 3.1 = refused 1 Gap
-- The third group is a repeat, which takes no place.
behind 3.1 fetch 0 = 1 ahead [value 42, stored]
count = 5
room = 251
close = closed
open = opened
count = 5
collect 2.2 = stored

# A group alone is put ahead, and then nothing is: it is on the disk, and nobody is answered twice
format 4096 16 256 = formatted
behind 0.1 alloc i 2 with 1.1 fetch 0 = 2 ahead []
behind none = 0 ahead [base 0, waiting]
count = 2
room = 254
behind none = 0 ahead []
close = closed
crash lost = crashed
open = opened
count = 2
collect 1.1 = waiting

# A group that is put ahead is forgotten where a command is put, and stays where none is
format 4096 16 256 = formatted
0.1 alloc i 2 = base 0
behind 1.1 store 0 42 = 1 ahead []
0.1 alloc i 2 = base 0
behind 2.1 store 1 7 = 1 ahead [stored]
3.1 fetch 0 = value 42
count = 3
collect 2.1 = refused 1 Gap
2.1 store 1 7 = stored

# A checkpoint keeps what is ahead, and so does a sweep
format 1 1 16 = formatted
0.1 alloc i 1 = base 0
behind 0.2 fetch 0 = 1 ahead []
turn = began
turn = page 0
turn = page 1
turn = page 2
turn = synced
turn = in force
turn = swept
sweep 64 = swept 0; room 16
behind 0.3 fetch 0 = 1 ahead [waiting]
count = 2
room = 15
close = closed
open = opened
collect 0.2 = waiting

# A group ahead is on the disk behind no gate: an opening doesn't find it
format 4096 16 256 = formatted
behind 0.1 alloc i 2 with 1.1 fetch 0 = 2 ahead []
close = closed
crash kept = crashed
open = opened
count = 0
behind 0.1 alloc i 2 = 1 ahead []
behind 1.1 fetch 0 = 1 ahead [base 0]
count = 1

# A stop while the gate of the group ahead is written, and a crash that leaves a byte a5 all over: all of it is there, and nothing of the next
fuse 7 stop = set
format 4096 16 256 = formatted
behind 0.1 alloc i 2 with 1.1 fetch 0 = 2 ahead []
behind 2.1 store 0 42 = refused 8 Device [refused 8 Device, refused 8 Device]
failed = true
behind 2.2 store 1 7 = refused 9 Failed []
close = closed
crash a5 = crashed
open = opened
count = 2
collect 1.1 = waiting
collect 2.1 = refused 1 Gap

# A stop while the bodies of the next group are written: all of the group ahead is there, and nothing of the next
fuse 8 stop = set
format 4096 16 256 = formatted
behind 0.1 alloc i 2 with 1.1 fetch 0 = 2 ahead []
behind 2.1 store 0 42 = refused 8 Device [refused 8 Device, refused 8 Device]
close = closed
crash kept = crashed
open = opened
count = 2
collect 2.1 = refused 1 Gap

# A group of three in a chain is stopped at each of its six calls, or fails there once
-- Three bodies, a sync; the gate, a sync. Behind it comes the same group once more, whose members are repeats, and then none.
format 3 6 32 = formatted
0.1 alloc i 2 = base 0
1.1 fetch 0 = waiting
2.1 store 0 42 = stored
1.1 fetch 0 = value 42
count = 3
room = 29
in each chain stop kept = 0 x5, 3
in each chain stop lost = 0 x6
in each chain stop a5 = 0 x4, 3 x2
in each chain stop 00 = 0 x6
in each chain once = 0 x5, 3
in each chain scar:00 = 0 x5, 3
in each chain scar:a5 = 0 x4, 3 x2
