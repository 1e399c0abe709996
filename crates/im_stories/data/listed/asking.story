-- The words of these stories, besides those of images.story, are:
-- submit 7 0.1 alloc i 1 = asked   asks for a command, whose ticket is 7
-- next 7 0 9 fetch 2 = 5           asks for a fetch of cell 2 by element 0, under its next number; entries from 9 on are kept
-- asked = 0 confirm 0 3, 7 0.5 ..  what is asked, with the tickets; `ahead` stands behind what is ahead
-- advance = 1 ahead [7 base 0]     those that were ahead act and are told; how many are ahead now
-- fill 1 = 1 65                    element 1 fetches cell 0, again and again, until it is refused: its window
-- A journal of 16 slots is at 40960. The first byte of a slot is its gate.

# Two groups of a chain: the second shares its sync with the gate of the first
format 2 2 16 = formatted
carry out = 4
submit 7 0.1 alloc i 1 = asked
submit 8 1.1 fetch 0 = asked
asked = 7 0.1 alloc i 1, 8 1.1 fetch 0
advance = 2 ahead []
steps = 63 at 40961, 63 at 41025, sync
carry out = 3
asked = 7 0.1 alloc i 1 ahead, 8 1.1 fetch 0 ahead
count = 0
window 1 = 1 1
submit 9 0.2 store 0 42 = asked
advance = 1 ahead [7 base 0, 8 waiting]
steps = 1 at 40960, 63 at 41089, sync
carry out = 3
asked = 9 0.2 store 0 42 ahead
count = 2
collect 1.1 = waiting
advance = 0 ahead [9 stored]
steps = 1 at 41088, sync
carry out = 2
asked =
collect 1.1 = value 42
advance = 0 ahead []
steps =
crash = crashed
open = opened
count = 3
collect 1.1 = value 42

# A crash before the gate: nothing of what was asked has acted, and nothing is asked any more
format 2 2 16 = formatted
carry out = 4
submit 1 0.1 alloc i 1 = asked
advance = 1 ahead []
carry out = 2
crash = crashed
open = opened
carry out = 1
count = 0
asked =
advance = 0 ahead []

# A crash behind the gate and before its sync, and one behind the sync
format 2 2 16 = formatted
carry out = 4
submit 1 0.1 alloc i 1 = asked
advance = 1 ahead []
carry out = 2
submit 2 1.1 fetch 0 = asked
advance = 1 ahead [1 base 0]
carry out 2 = 2
crash = crashed
open = opened
carry out = 1
count = 0
submit 1 0.1 alloc i 1 = asked
advance = 1 ahead []
carry out = 2
submit 2 1.1 fetch 0 = asked
advance = 1 ahead [1 base 0]
carry out = 3
crash = crashed
open = opened
count = 1
collect 1.1 = refused 1 Gap

# A request gets the number behind all that is asked, of its element alone
format 2 2 16 = formatted
carry out = 4
next 1 0 99 alloc m 1 = 1
next 2 0 99 put 0 5 = 2
next 3 1 99 take 0 = 1
next 4 7 99 take 0 = refused 5 NoElement
submit 5 1.5 take 0 = asked
next 6 1 99 take 0 = 2
asked = 1 0.1 alloc m 1, 2 0.2 put 0 5, 3 1.1 take 0, 5 1.5 take 0, 6 1.2 take 0
advance = 5 ahead []
next 7 0 99 put 0 6 = 3
window 0 = 1 1
advance = 1 ahead [1 base 0, 2 stored, 3 value 5, 5 refused 1 Gap, 6 waiting]
window 0 = 1 3
advance = 0 ahead [7 stored]
collect 1.2 = value 6

# A full window is confirmed before the request, up to where entries are kept, and no other window is
format 2 2 256 = formatted
0.1 alloc i 1 = base 0
0.2 store 0 42 = stored
fill 1 = 1 65
next 1 1 1 fetch 0 = refused 3 WindowFull
next 1 1 21 fetch 0 = 65
next 2 1 21 fetch 0 = 66
asked = 0 confirm 1 21, 1 1.65 fetch 0, 2 1.66 fetch 0
advance = 3 ahead []
advance = 0 ahead [0 confirmed, 1 value 42, 2 value 42]
window 1 = 21 67
fill 1 = 21 85
next 3 1 999 fetch 0 = 85
asked = 0 confirm 1 85, 3 1.85 fetch 0

# The first entry of a full window waits: nothing can be confirmed
format 2 2 256 = formatted
0.1 alloc i 1 = base 0
fill 1 = 1 65
next 1 1 99 fetch 0 = refused 3 WindowFull
asked =
0.2 store 0 42 = stored
next 1 1 99 fetch 0 = 65
asked = 0 confirm 1 65, 1 1.65 fetch 0

# No room, and nothing ahead: one after another is told alone, a repeat as before
format 2 2 16 = formatted
0.1 alloc i 1 = base 0
fill 1 = 1 16
room = 0
submit 1 1.1 fetch 0 = asked
submit 2 1.16 fetch 0 = asked
submit 3 1.18 fetch 0 = asked
advance = 0 ahead [1 waiting]
steps =
asked = 2 1.16 fetch 0, 3 1.18 fetch 0
advance = 0 ahead [2 refused 7 JournalFull]
advance = 0 ahead [3 refused 1 Gap]
advance = 0 ahead []
steps =
count = 16

# A command that is served acts before what is asked, which has to be put ahead again
format 2 2 16 = formatted
submit 1 0.1 alloc i 1 = asked
advance = 1 ahead []
1.1 fetch 0 = nocell
asked = 1 0.1 alloc i 1
advance = 1 ahead []
advance = 0 ahead [1 base 0]
count = 2

# A step is lost: nothing goes on
format 2 2 16 = formatted
submit 1 0.1 alloc i 1 = asked
lose =
advance = refused 8 Device []
next 2 0 99 fetch 0 = refused 8 Device
asked = 1 0.1 alloc i 1
