# A stop within a fetch leaves it whole or not at all
-- The disk stops behind the format, the allocation, and three of the fetch's four calls: a write of the slot behind
-- its gate, a sync, the gate, a sync. So the gate alone is in doubt, and a crash may leave it open.
fuse 11 stop = set
format 4096 16 256 = formatted
0.1 alloc i 1 = base 0
1.1 fetch 0 = refused 8 Device
-- From then on nothing is answered, not even a repeat.
1.1 fetch 0 = refused 9 Failed
0.1 alloc i 1 = refused 9 Failed
16.1 fetch 0 = refused 9 Failed
collect 0.1 = refused 9 Failed
window 0 = refused 9 Failed
count = 1
failed = true
close = closed
crash kept = crashed
-- The fetch is there, though it was never answered. Sent again it acts once.
open = opened
count = 2
collect 1.1 = waiting
1.1 fetch 0 = waiting
count = 2
room = 254
waiting 0 = 1.1

# A fetch whose slot was lost is sent again
fuse 11 stop = set
format 4096 16 256 = formatted
0.1 alloc i 1 = base 0
1.1 fetch 0 = refused 8 Device
close = closed
crash lost = crashed
open = opened
count = 1
collect 1.1 = refused 1 Gap
1.1 fetch 0 = waiting
count = 2
room = 254
waiting 0 = 1.1

# Each stop within an allocation and a fetch
-- The disk stops at each call of the two in turn. Told is of how many of the two the command is found, where the stop
-- comes in the first, the second, the third and the fourth call. Nothing is answered behind the stop. What is found is
-- as it was told; then both are sent again, are answered as they were, and all is as here: the cells, who waits, what
-- is kept.
format 4096 16 256 = formatted
0.1 alloc i 1 = base 0
1.1 fetch 0 = waiting
count = 2
room = 254
waiting 0 = 1.1
in each serve stop kept = 0 0 0 2 of 2
in each serve stop lost = 0 0 0 0 of 2
in each serve stop a5 = 0 0 2 2 of 2
in each serve stop 00 = 0 0 0 0 of 2
in each serve stop a5 lost = 0 0 2 2 of 2

# A crash right behind an opening takes away nothing that it found
-- The disk stops within the write of the fetch's gate, and the crash leaves a5 there: the gate is open, though no sync
-- followed it. The opening syncs before it reads, so the next crash, which loses what wasn't synced, leaves the fetch.
fuse 10 stop = set
format 4096 16 256 = formatted
0.1 alloc i 1 = base 0
1.1 fetch 0 = refused 8 Device
close = closed
crash a5 = crashed
open = opened
count = 2
collect 1.1 = waiting
close = closed
crash lost = crashed
open = opened
count = 2
collect 1.1 = waiting
1.1 fetch 0 = waiting
count = 2
room = 254
waiting 0 = 1.1

# Twenty commands are sent again after a stop at any call, and each acts once
format 3 6 32 = formatted
0.1 alloc i 1 = base 0
1.1 fetch 0 = waiting
2.1 fetch 0 = waiting
1.2 fetch 0 = waiting
3.1 store 0 7 = stored
-- From here on a repeat of a fetch is answered with what was stored.
1.1 fetch 0 = value 7
2.1 fetch 0 = value 7
1.2 fetch 0 = value 7
0.2 alloc m 1 = base 1
3.2 take 1 = waiting
1.3 take 1 = waiting
2.2 take 1 = waiting
4.1 put 1 10 = stored
3.2 take 1 = value 10
4.2 put 1 20 = stored
1.3 take 1 = value 20
4.3 put 1 30 = stored
2.2 take 1 = value 30
confirm 1 4 = confirmed
1.1 fetch 0 = refused 2 Forgotten
1.2 fetch 0 = refused 2 Forgotten
1.3 take 1 = refused 2 Forgotten
5.1 fetch 0 = value 7
5.2 store 0 8 = clash
5.3 fetch 1 = wrongkind
0.3 release 1 = released
0.4 alloc i 2 = base 1
5.4 store 2 9 = stored
5.5 fetch 2 = value 9
count = 20
room = 12
collect 1.3 = refused 2 Forgotten
collect 2.1 = value 7
collect 2.2 = value 30
collect 3.2 = value 10
collect 0.4 = base 1
collect 5.5 = value 9
-- A stop in any of the 80 calls, and what a crash leaves.
in each serve stop kept = 0 0 0 20 of 20
in each serve stop lost = 0 0 0 0 of 20
in each serve stop a5 = 0 0 20 20 of 20
in each serve stop 00 = 0 0 0 0 of 20
-- One fault in any of the calls, with no crash: the same disk is opened again. A scar is what the failed write put all
-- over its range.
in each serve once = 0 0 0 20 of 20
in each serve scar:a5 = 0 0 20 20 of 20
in each serve scar:5a = 0 0 0 20 of 20
in each serve scar:00 = 0 0 0 20 of 20
-- An opening makes five calls: a sync, the two headers, the pages, the journal. A stop or a fault in any of them, and
-- a crash behind it, changes nothing: all twenty are found.
in each opening stop kept = 20 x5
in each opening stop lost = 20 x5
in each opening stop a5 = 20 x5
in each opening stop 00 = 20 x5
in each opening once kept = 20 x5
in each opening once lost = 20 x5
in each opening once a5 = 20 x5
in each opening once 00 = 20 x5
in each opening scar:a5 kept = 20 x5
in each opening scar:a5 lost = 20 x5
in each opening scar:a5 a5 = 20 x5
in each opening scar:a5 00 = 20 x5
-- With no crash behind it the same disk is opened a second time.
in each opening once = 20 x5
in each opening scar:a5 = 20 x5
in each opening scar:00 = 20 x5
-- The gate of the twentieth command is written, and its sync fails. The first call of an opening settles what was in
-- doubt.
in each reopening stop kept = 20 x5
in each reopening stop lost = 19, 20 x4
in each reopening stop a5 = 20 x5
in each reopening stop 00 = 19, 20 x4
in each reopening once = 20 x5
in each reopening once lost = 19, 20 x4
in each reopening scar:a5 = 20 x5
