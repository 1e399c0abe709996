# A repeat acts once, and makes no call of the disk
format 4096 16 256 = formatted
0.1 alloc i 1 = base 0
count = 1
waiting 0 =
1.1 fetch 0 = waiting
count = 2
waiting 0 = 1.1
-- The cell's list holds the request once, however often it is sent.
1.1 fetch 0 = waiting
count = 2
waiting 0 = 1.1
-- None of these is accepted, and none changes anything.
1.1 fetch 1 = refused 4 Mismatch
count = 2
waiting 0 = 1.1
1.3 fetch 0 = refused 1 Gap
count = 2
waiting 0 = 1.1
1.0 fetch 0 = refused 2 Forgotten
count = 2
waiting 0 = 1.1
16.1 fetch 0 = refused 5 NoElement
count = 2
waiting 0 = 1.1
2.1 store 0 3 = stored
count = 3
waiting 0 =
1.1 fetch 0 = value 3
count = 3
waiting 0 =
close = closed
-- The format makes four calls, and each accepted command four more.
calls = 16

# A full window takes no more until it is confirmed
format 4096 16 256 = formatted
0.1 alloc i 1 = base 0
64 times 1.1 fetch 0 = waiting x64
1.65 fetch 0 = refused 3 WindowFull
-- Nothing that waits can be confirmed, and nothing that wasn't asked.
confirm 1 2 = refused 6 NotAnswered
confirm 1 66 = refused 1 Gap
2.1 store 0 8 = stored
confirm 1 65 = confirmed
1.1 fetch 0 = refused 2 Forgotten
1.65 fetch 0 = value 8
count = 68
room = 188
window 1 = 65 66
-- A confirmation that forgets nothing isn't counted.
confirm 1 1 = confirmed
count = 68
room = 188
window 1 = 65 66
collect 1.65 = value 8

# A confirmation stands in its slot
format 4096 16 256 = formatted
64 times 1.1 fetch 5 = nocell x64
confirm 1 65 = confirmed
1.65 fetch 5 = nocell
count = 66
close = closed
-- The gate, a group of one, operation 8, element 1; sequence number 64; up to 65.
slot 64 = a5 01 08 00 01 00 00 00 40 00 00 00 00 00 00 00 41 00*47

# A full journal refuses what it would accept
format 4096 16 16 = formatted
16 times 1.1 fetch 0 = nocell x16
room = 0
2.1 fetch 0 = refused 7 JournalFull
collect 2.1 = refused 1 Gap
-- A repeat needs no room.
1.16 fetch 0 = nocell

# What was closed is opened again
format 4096 16 256 = formatted
0.1 alloc m 1 = base 0
1.1 put 0 1 = stored
1.2 put 0 2 = clash
close = closed
open = opened
count = 3
room = 253
1.1 put 0 1 = stored
1.3 take 0 = clash

# A file of another length is not formatted
-- The least image has 33,792 bytes. No call is made that could change the file.
format 1 1 16 in 0 bytes = refused 12 WrongLength
calls = 0
format 1 1 16 in 33791 bytes = refused 12 WrongLength
calls = 0
format 1 1 16 in 33793 bytes = refused 12 WrongLength
calls = 0
format 1 1 16 in 450560 bytes = refused 12 WrongLength
calls = 0
format 1 1 16 in 33792 bytes = formatted
