# Confirmations go to the disk with requests, as one group
-- A member is judged at what those before it come to. Each of the five takes a slot.
format 4096 16 256 in 450560 bytes = formatted
together 0.1 alloc i 2 with 1.1 fetch 0 with 2.1 store 0 42 = base 0, waiting, stored
commands confirm 0 2 with 1.2 fetch 0 with confirm 1 2 with confirm 2 2 with 2.2 store 1 7 = confirmed, value 42, confirmed, confirmed, stored
count = 8
room = 248
collect 0.1 = refused 2 Forgotten
collect 1.1 = refused 2 Forgotten
collect 1.2 = value 42
collect 2.2 = stored
close = closed
open = opened
count = 8
collect 1.1 = refused 2 Forgotten
collect 1.2 = value 42

# A group ends before a confirmation of what waits
-- The store answers it, but that isn't known before the store acts.
format 4096 16 256 = formatted
together 0.1 alloc i 2 with 1.1 fetch 0 = base 0, waiting
commands confirm 1 2 with confirm 0 2 = refused 6 NotAnswered, confirmed
count = 3
commands 2.1 store 0 42 with confirm 1 2 with 3.1 store 1 5 = stored
count = 4
commands confirm 1 2 with 3.1 store 1 5 = confirmed, stored
count = 6
collect 1.1 = refused 2 Forgotten

# A stop while no body is written, and a crash that leaves a byte a5 all over of what wasn't synced
fuse 10 stop = set
format 4096 16 256 = formatted
together 0.1 alloc i 2 with 1.1 fetch 0 with 2.1 store 0 42 = base 0, waiting, stored
commands confirm 0 2 with confirm 1 2 with 2.2 store 1 7 = refused 8 Device, refused 8 Device, refused 8 Device
failed = true
count = 3
commands confirm 0 2 with 2.2 store 1 7 = refused 9 Failed, refused 9 Failed
close = closed
crash a5 = crashed
open = opened
count = 3
collect 0.1 = base 0
collect 1.1 = value 42
collect 2.2 = refused 1 Gap
commands confirm 0 2 with confirm 1 2 with 2.2 store 1 7 = confirmed, confirmed, stored
count = 6

# A stop while one body is written, and a crash that leaves a byte a5 all over of what wasn't synced
fuse 11 stop = set
format 4096 16 256 = formatted
together 0.1 alloc i 2 with 1.1 fetch 0 with 2.1 store 0 42 = base 0, waiting, stored
commands confirm 0 2 with confirm 1 2 with 2.2 store 1 7 = refused 8 Device, refused 8 Device, refused 8 Device
failed = true
count = 3
commands confirm 0 2 with 2.2 store 1 7 = refused 9 Failed, refused 9 Failed
close = closed
crash a5 = crashed
open = opened
count = 3
collect 0.1 = base 0
collect 1.1 = value 42
collect 2.2 = refused 1 Gap
commands confirm 0 2 with confirm 1 2 with 2.2 store 1 7 = confirmed, confirmed, stored
count = 6

# A stop while two bodies are written, and a crash that leaves a byte a5 all over of what wasn't synced
fuse 12 stop = set
format 4096 16 256 = formatted
together 0.1 alloc i 2 with 1.1 fetch 0 with 2.1 store 0 42 = base 0, waiting, stored
commands confirm 0 2 with confirm 1 2 with 2.2 store 1 7 = refused 8 Device, refused 8 Device, refused 8 Device
failed = true
count = 3
commands confirm 0 2 with 2.2 store 1 7 = refused 9 Failed, refused 9 Failed
close = closed
crash a5 = crashed
open = opened
count = 3
collect 0.1 = base 0
collect 1.1 = value 42
collect 2.2 = refused 1 Gap
commands confirm 0 2 with confirm 1 2 with 2.2 store 1 7 = confirmed, confirmed, stored
count = 6

# A stop while the bodies are written and not synced, and a crash that leaves a byte a5 all over of what wasn't synced
fuse 13 stop = set
format 4096 16 256 = formatted
together 0.1 alloc i 2 with 1.1 fetch 0 with 2.1 store 0 42 = base 0, waiting, stored
commands confirm 0 2 with confirm 1 2 with 2.2 store 1 7 = refused 8 Device, refused 8 Device, refused 8 Device
failed = true
count = 3
commands confirm 0 2 with 2.2 store 1 7 = refused 9 Failed, refused 9 Failed
close = closed
crash a5 = crashed
open = opened
count = 3
collect 0.1 = base 0
collect 1.1 = value 42
collect 2.2 = refused 1 Gap
commands confirm 0 2 with confirm 1 2 with 2.2 store 1 7 = confirmed, confirmed, stored
count = 6

# A stop while the gate is being written, and a crash that leaves nothing of what wasn't synced
fuse 14 stop = set
format 4096 16 256 = formatted
together 0.1 alloc i 2 with 1.1 fetch 0 with 2.1 store 0 42 = base 0, waiting, stored
commands confirm 0 2 with confirm 1 2 with 2.2 store 1 7 = refused 8 Device, refused 8 Device, refused 8 Device
failed = true
count = 3
commands confirm 0 2 with 2.2 store 1 7 = refused 9 Failed, refused 9 Failed
close = closed
crash lost = crashed
open = opened
count = 3
collect 0.1 = base 0
collect 1.1 = value 42
collect 2.2 = refused 1 Gap
commands confirm 0 2 with confirm 1 2 with 2.2 store 1 7 = confirmed, confirmed, stored
count = 6

# A stop while the gate is being written, and a crash that leaves a byte a5 all over of what wasn't synced
fuse 14 stop = set
format 4096 16 256 = formatted
together 0.1 alloc i 2 with 1.1 fetch 0 with 2.1 store 0 42 = base 0, waiting, stored
commands confirm 0 2 with confirm 1 2 with 2.2 store 1 7 = refused 8 Device, refused 8 Device, refused 8 Device
failed = true
count = 3
commands confirm 0 2 with 2.2 store 1 7 = refused 9 Failed, refused 9 Failed
close = closed
crash a5 = crashed
open = opened
count = 6
collect 0.1 = refused 2 Forgotten
collect 1.1 = refused 2 Forgotten
collect 2.2 = stored
commands confirm 0 2 with confirm 1 2 with 2.2 store 1 7 = confirmed, confirmed, stored
count = 6

# A stop while the gate is written and not synced, and a crash that leaves nothing of what wasn't synced
fuse 15 stop = set
format 4096 16 256 = formatted
together 0.1 alloc i 2 with 1.1 fetch 0 with 2.1 store 0 42 = base 0, waiting, stored
commands confirm 0 2 with confirm 1 2 with 2.2 store 1 7 = refused 8 Device, refused 8 Device, refused 8 Device
failed = true
count = 3
commands confirm 0 2 with 2.2 store 1 7 = refused 9 Failed, refused 9 Failed
close = closed
crash lost = crashed
open = opened
count = 3
collect 0.1 = base 0
collect 1.1 = value 42
collect 2.2 = refused 1 Gap
commands confirm 0 2 with confirm 1 2 with 2.2 store 1 7 = confirmed, confirmed, stored
count = 6

# A stop while the gate is written and not synced, and a crash that leaves all that was written
fuse 15 stop = set
format 4096 16 256 = formatted
together 0.1 alloc i 2 with 1.1 fetch 0 with 2.1 store 0 42 = base 0, waiting, stored
commands confirm 0 2 with confirm 1 2 with 2.2 store 1 7 = refused 8 Device, refused 8 Device, refused 8 Device
failed = true
count = 3
commands confirm 0 2 with 2.2 store 1 7 = refused 9 Failed, refused 9 Failed
close = closed
crash kept = crashed
open = opened
count = 6
collect 0.1 = refused 2 Forgotten
collect 1.1 = refused 2 Forgotten
collect 2.2 = stored
commands confirm 0 2 with confirm 1 2 with 2.2 store 1 7 = confirmed, confirmed, stored
count = 6
