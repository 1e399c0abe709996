# One fault in any call of three commands and of the turns behind them takes nothing away
-- The least image. The commands make twelve calls, and the turns of their checkpoint thirteen. The call that fails is
-- answered Device, and each later one Failed. The same disk is opened again; the three commands are sent again, are
-- answered as they were, and each has acted once.
format 1 1 16 in 33792 bytes = formatted
0.1 alloc i 1 = base 0
0.2 fetch 0 = waiting
0.3 store 0 0 = stored
0.2 fetch 0 = value 0
collect 0.2 = value 0
count = 3
in each serve once = 0 0 0 3 of 3
in each serve scar:00 = 0 0 0 3 of 3
in each serve scar:a5 = 0 0 3 3 of 3
in each turn once = 3 x13
in each turn scar:00 = 3 x13
in each turn scar:5a = 3 x13
in each turn scar:a5 = 3 x13
-- A crash behind the fault.
in each turn once kept = 3 x13
in each turn once lost = 3 x13
in each turn once 00 = 3 x13
in each turn once a5 = 3 x13
in each turn scar:00 kept = 3 x13
in each turn scar:00 lost = 3 x13
in each turn scar:00 00 = 3 x13
in each turn scar:00 a5 = 3 x13
in each turn scar:a5 kept = 3 x13
in each turn scar:a5 lost = 3 x13
in each turn scar:a5 00 = 3 x13
in each turn scar:a5 a5 = 3 x13
-- Behind the turns an opening makes five calls. One of them fails, and a second opening of the same disk finds all
-- three.
8 turns = began, page 0..2, synced, in force, swept, idle; room 13 x6, 16 x2
close = closed
calls = 29
in each call once = 3 x5
in each call scar:00 = 3 x5
in each call scar:a5 = 3 x5
in each call stop kept = 3 x5
in each call stop lost = 3 x5
in each call stop 00 = 3 x5
in each call stop a5 = 3 x5

# A header that a stop left torn under a closed gate never comes into force
-- The disk stops behind five calls of the turns. The sixth would have written the next header behind its closed gate,
-- and the crash leaves a5 all over that.
fuse 21 stop = set
format 1 1 16 = formatted
0.1 alloc i 1 = base 0
0.2 fetch 0 = waiting
0.3 store 0 0 = stored
0.2 fetch 0 = value 0
4 turns = began, page 0..2; room 13 x4
turn = synced
turn = refused 8 Device
turn = refused 9 Failed
close = closed
crash a5 = crashed
open = opened
count = 3
0.4 fetch 0 = value 0
close = closed
-- Five calls of an opening and fifteen of the turns: a stop in any of them, and a crash.
in each call stop kept = 4 x20
in each call stop lost = 4 x20
in each call stop 00 = 4 x20
in each call stop a5 = 4 x20
in each call once = 4 x20
in each call scar:00 = 4 x20
in each call scar:a5 = 4 x20

# A header that a stop left whole under a closed gate never comes into force
-- The disk stops behind seven calls of the turns: the next header is whole, and its gate, though written, is lost.
fuse 23 stop = set
format 1 1 16 = formatted
0.1 alloc i 1 = base 0
0.2 fetch 0 = waiting
0.3 store 0 0 = stored
0.2 fetch 0 = value 0
4 turns = began, page 0..2; room 13 x4
turn = synced
turn = refused 8 Device
turn = refused 9 Failed
close = closed
crash lost = crashed
open = opened
count = 3
0.4 fetch 0 = value 0
close = closed
in each call stop kept = 4 x20
in each call stop lost = 4 x20
in each call stop 00 = 4 x20
in each call stop a5 = 4 x20
in each call once = 4 x20
in each call scar:00 = 4 x20
in each call scar:a5 = 4 x20
