-- A disk in memory, and what a crash leaves of it. Bytes are two hex digits each. A line `if KIND CALL` tells what the
-- call would answer after a crash here: `kept` leaves the bytes as they were written, `lost` those of the last sync
-- that succeeded, and a byte puts itself wherever a range was written since. The story goes on as if there had been
-- none.
-- Its words are:
-- disk N                         a new disk, of N zero bytes
-- fuse N stop                    from now on it passes N calls, and then fails: stop, once, scar:BYTE
-- read AT N, write AT BYTE.., sync, length
-- fail write AT N [BYTE], fail sync      a call that fails, and may leave a byte all over its range
-- gate AT a5 BYTE..              writes the bytes, the first of which is an open gate, behind it
-- gate AT                        opens a gate
-- six calls                      a dot for each that passed, and an x for each that failed
-- crash KIND                     a crash: kept, lost, or a byte
-- bytes, calls                   all bytes, with no call, and no fuse from then on; how many calls there were

# A crash leaves a disk alone that nothing was written to
disk 6 = blank
length = 6
if kept bytes = 00 00 00 00 00 00
if lost bytes = 00 00 00 00 00 00
if 09 bytes = 00 00 00 00 00 00

# A write that no sync followed is lost, kept, or anything
disk 6 = blank
write 2 01 02 03 = ok
if kept bytes = 00 00 01 02 03 00
if lost bytes = 00 00 00 00 00 00
if 09 bytes = 00 00 09 09 09 00

# A write that a sync followed outlives each crash
disk 6 = blank
write 2 01 02 03 = ok
sync = ok
if kept bytes = 00 00 01 02 03 00
if lost bytes = 00 00 01 02 03 00
if 09 bytes = 00 00 01 02 03 00

# Two writes that overlap are undone together
disk 6 = blank
write 1 01 02 03 = ok
write 3 04 05 = ok
if kept bytes = 00 01 02 04 05 00
if lost bytes = 00 00 00 00 00 00
if 09 bytes = 00 09 09 09 09 00

# A write over one that was synced leaves the synced bytes where it is lost
disk 6 = blank
write 1 01 02 03 = ok
sync = ok
write 3 04 05 = ok
if kept bytes = 00 01 02 04 05 00
if lost bytes = 00 01 02 03 00 00
if 09 bytes = 00 01 02 09 09 00

# A failed write that left the bytes has its range in doubt all the same
disk 6 = blank
write 0 07 07 07 07 07 07 = ok
sync = ok
fail write 2 3 = so
if kept bytes = 07 07 07 07 07 07
if lost bytes = 07 07 07 07 07 07
if 09 bytes = 07 07 09 09 09 07

# A failed write may put a byte over its range
disk 6 = blank
write 0 07 07 07 07 07 07 = ok
sync = ok
fail write 2 3 05 = so
if kept bytes = 07 07 05 05 05 07
if lost bytes = 07 07 07 07 07 07
if 09 bytes = 07 07 09 09 09 07

# A failed sync puts nothing down
disk 6 = blank
write 0 01 02 = ok
fail sync = so
if kept bytes = 01 02 00 00 00 00
if lost bytes = 00 00 00 00 00 00
if 09 bytes = 09 09 00 00 00 00
-- A good one puts down what the failed one didn't.
sync = ok
if kept bytes = 01 02 00 00 00 00
if lost bytes = 01 02 00 00 00 00
if 09 bytes = 01 02 00 00 00 00

# A crash settles nothing: what was in doubt before it may still be lost
disk 6 = blank
write 0 01 02 = ok
sync = ok
write 1 03 04 = ok
crash 08 = so
if kept bytes = 01 08 08 00 00 00
if lost bytes = 01 02 00 00 00 00
if 09 bytes = 01 09 09 00 00 00

# A write after a crash goes on from what the crash left
disk 6 = blank
write 0 01 02 = ok
sync = ok
write 1 03 04 = ok
crash 08 = so
write 2 05 06 = ok
if kept bytes = 01 08 05 06 00 00
if lost bytes = 01 02 00 00 00 00
if 09 bytes = 01 09 09 09 00 00

# A sync after a crash puts down what the crash left
disk 6 = blank
write 0 01 02 = ok
sync = ok
write 1 03 04 = ok
crash 08 = so
sync = ok
if kept bytes = 01 08 08 00 00 00
if lost bytes = 01 08 08 00 00 00
if 09 bytes = 01 08 08 00 00 00

# A disk larger than memory is refused
disk 4611686018427387904 = refused 10 NoMemory

-- The six calls are a write of 1 at 0, a read and a sync, and then a write of 2 at 1, a read and a sync. Each one that
-- failed is an x. The length is told without a call.

# A fuse that stops passes so many calls, and fails each later one
disk 2 = blank
fuse 0 stop = so
length = 2
six calls = xxxxxx
calls = 6
if kept bytes = 00 00
if lost bytes = 00 00
disk 2 = blank
fuse 1 stop = so
length = 2
six calls = .xxxxx
calls = 6
if kept bytes = 01 00
if lost bytes = 00 00
disk 2 = blank
fuse 2 stop = so
length = 2
six calls = ..xxxx
calls = 6
if kept bytes = 01 00
if lost bytes = 00 00
disk 2 = blank
fuse 3 stop = so
length = 2
six calls = ...xxx
calls = 6
if kept bytes = 01 00
if lost bytes = 01 00
disk 2 = blank
fuse 4 stop = so
length = 2
six calls = ....xx
calls = 6
if kept bytes = 01 02
if lost bytes = 01 00
disk 2 = blank
fuse 5 stop = so
length = 2
six calls = .....x
calls = 6
if kept bytes = 01 02
if lost bytes = 01 00
disk 2 = blank
fuse 6 stop = so
length = 2
six calls = ......
calls = 6
if kept bytes = 01 02
if lost bytes = 01 02

# A fuse may fail one call alone: a write then leaves its range's bytes
disk 2 = blank
fuse 0 once = so
length = 2
six calls = x.....
calls = 6
if kept bytes = 00 02
if lost bytes = 00 02
disk 2 = blank
fuse 1 once = so
length = 2
six calls = .x....
calls = 6
if kept bytes = 01 02
if lost bytes = 01 02
disk 2 = blank
fuse 2 once = so
length = 2
six calls = ..x...
calls = 6
if kept bytes = 01 02
if lost bytes = 01 02
disk 2 = blank
fuse 3 once = so
length = 2
six calls = ...x..
calls = 6
if kept bytes = 01 00
if lost bytes = 01 00
disk 2 = blank
fuse 4 once = so
length = 2
six calls = ....x.
calls = 6
if kept bytes = 01 02
if lost bytes = 01 02
disk 2 = blank
fuse 5 once = so
length = 2
six calls = .....x
calls = 6
if kept bytes = 01 02
if lost bytes = 01 00
disk 2 = blank
fuse 6 once = so
length = 2
six calls = ......
calls = 6
if kept bytes = 01 02
if lost bytes = 01 02

# A fuse may fail one write and leave a scar all over its range
disk 2 = blank
fuse 0 scar:09 = so
length = 2
six calls = x.....
calls = 6
if kept bytes = 09 02
if lost bytes = 09 02
disk 2 = blank
fuse 1 scar:09 = so
length = 2
six calls = .x....
calls = 6
if kept bytes = 01 02
if lost bytes = 01 02
disk 2 = blank
fuse 2 scar:09 = so
length = 2
six calls = ..x...
calls = 6
if kept bytes = 01 02
if lost bytes = 01 02
disk 2 = blank
fuse 3 scar:09 = so
length = 2
six calls = ...x..
calls = 6
if kept bytes = 01 09
if lost bytes = 01 09
disk 2 = blank
fuse 4 scar:09 = so
length = 2
six calls = ....x.
calls = 6
if kept bytes = 01 02
if lost bytes = 01 02
disk 2 = blank
fuse 5 scar:09 = so
length = 2
six calls = .....x
calls = 6
if kept bytes = 01 02
if lost bytes = 01 00
disk 2 = blank
fuse 6 scar:09 = so
length = 2
six calls = ......
calls = 6
if kept bytes = 01 02
if lost bytes = 01 02

# A gate stays shut where the write of the body fails
disk 4 = blank
fuse 0 stop = so
gate 0 a5 05 06 = fault
if kept bytes = 00 00 00 00
if lost bytes = 00 00 00 00
if 01 bytes = 00 01 01 00

# A gate stays shut where the sync of the body fails
disk 4 = blank
fuse 1 stop = so
gate 0 a5 05 06 = fault
if kept bytes = 00 05 06 00
if lost bytes = 00 00 00 00
if 01 bytes = 00 01 01 00

# A gate opens or not where its write fails, over the whole body
disk 4 = blank
fuse 2 stop = so
gate 0 a5 05 06 = fault
if kept bytes = 00 05 06 00
if lost bytes = 00 05 06 00
if 01 bytes = 01 05 06 00

# A gate is open or not where its sync fails, over the whole body
disk 4 = blank
fuse 3 stop = so
gate 0 a5 05 06 = fault
if kept bytes = a5 05 06 00
if lost bytes = 00 05 06 00
if 01 bytes = 01 05 06 00

# A gate that was opened is open over the whole body
disk 4 = blank
fuse 4 stop = so
gate 0 a5 05 06 = ok
if kept bytes = a5 05 06 00
if lost bytes = a5 05 06 00
if 01 bytes = a5 05 06 00

# A gate is opened over all that was written before it
disk 8 = blank
write 1 05 06 = ok
write 5 07 = ok
gate 0 = ok
if kept bytes = a5 05 06 00 00 07 00 00
if lost bytes = a5 05 06 00 00 07 00 00
if 01 bytes = a5 05 06 00 00 07 00 00

# A gate is closed where the sync before it fails, whatever is left behind it
disk 4 = blank
write 1 05 06 = ok
fuse 0 stop = so
gate 0 = fault
if kept bytes = 00 05 06 00
if lost bytes = 00 00 00 00
if 01 bytes = 00 01 01 00

# A gate is open or not where its own sync fails, and what is behind it stays
disk 4 = blank
write 1 05 06 = ok
fuse 2 stop = so
gate 0 = fault
if kept bytes = a5 05 06 00
if lost bytes = 00 05 06 00
if 01 bytes = 01 05 06 00
