# A window goes round its ring of sixty-four places
-- Request n stands at place n mod 64: 63 at the last place, 64 and 65 at the first two.
windows 1 = 1
window 0 63 = set
keep 0 alloc i 9 -> base 4 = 0.63
keep 0 fetch 5 -> waiting = 0.64
keep 0 store 6 42 -> stored = 0.65
spell session 0 = 4096
-- The base and the number of entries
bytes 0 32 = 3f 00*7 03 00*23
-- Place 0: the fetch
bytes 32 32 = 04 00*3 05 00*27
-- Place 1: the store
bytes 64 32 = 05 00 05 00 06 00*3 2a 00*23
-- Places 2 to 62 have no entry.
bytes 96 1952 = 00*1952
-- Place 63: the allocation
bytes 2048 32 = 01 00 01 00 09 00*11 04 00*15
bytes 2080 2016 = 00*2016
read = base 63 with 3
kept 63 = alloc i 9 -> base 4
kept 64 = fetch 5 -> waiting
kept 65 = store 6 42 -> stored
kept 66 = none

# A session record that is spelled another way is none
windows 1 = 1
window 0 63 = set
keep 0 alloc i 9 -> base 4 = 0.63
keep 0 fetch 5 -> waiting = 0.64
keep 0 store 6 42 -> stored = 0.65
spell session 0 = 4096
-- Base 0, bases whose first entry would stand at another place, and one whose would stand at the same
byte 0 0 = refused 0
byte 0 15 = refused 0
byte 0 64 = refused 0
byte 0 127 = read 0
-- A base past the last number
byte 7 64 = refused 7
-- An entry too few, an entry too many, and more than there are places
byte 8 0..255 = refused 0..2, read 3, refused 4..255
-- Bytes behind the count
byte 9..31 1 = refused 9..31
-- Place 0 with no entry, and with an ill-spelled one
byte 32 0 = refused 32
byte 33 1 = refused 33
-- Places with no entry, the first and the last ones, and what lies behind the places
byte 96..159 1 = refused 96..159
byte 1984..2047 1 = refused 1984..2047
byte 2079 1 = refused 2079
byte 2080..2111 1 = refused 2080..2111
byte 4064..4095 1 = refused 4064..4095
-- A byte too few, and nothing but zeros: there is no number 0
short = refused
read session 00*4096 = refused

# A full window is read back
-- The first number leaves 1 when it is divided by 64, and the last one is the last that there is: it stands at place 0.
windows 1 = 1
window 0 4611686018427387841 = set
keep 0 64 stores = 0.4611686018427387841 to 4611686018427387904
spell session 0 = 4096
bytes 0 9 = c1 ff*6 3f 40
-- The values at the places 0, 1 and 63
bytes 40 1 = 3f
bytes 72 1 = 00
bytes 2056 1 = 3e
read = base 4611686018427387841 with 64
kept stores = 64
kept 4611686018427387841 = store 0 0 -> clash
kept 4611686018427387904 = store 0 63 -> clash
kept 4611686018427387905 = none
-- An entry too few, and more than there are places
byte 8 0..255 = refused 0..63, read 64, refused 65..255

# No entry is past the last number
windows 1 = 1
-- The numbers are used up: each was confirmed.
window 0 4611686018427387905 = set
spell session 0 = 4096
read = base 4611686018427387905 with 0
-- A request behind the last number
keep 0 fetch 5 -> waiting = 0.4611686018427387905
spell session 0 = 4096
read = refused
-- A base two past the last number
window 0 4611686018427387906 = set
spell session 0 = 4096
read = refused

# A reset is kept, and no confirmation
-- Request 1, a release that was done, stands at place 1.
read session 01 00*7 01 00*23 00*32 03 00 09 00 07 00*27 00*4000 = base 1 with 1
kept 1 = release 7 -> released
byte 64 0..255 = refused 0, read 1..7, refused 8, read 9, refused 10..255
byte 66 0..255 = read 0..12, refused 13..255
read session 01 00*7 01 00*23 00*32 09 00 0c 00 07 00*27 00*4000 = base 1 with 1
kept 1 = reset 7 -> cleared

# A window of the first version goes round a ring of sixteen places
version 1 = 1
read session 0f 00*7 03 00*23 04 00*3 05 00*27 05 00 05 00 06 00*3 2a 00*23 00*416 01 00 01 00 09 00*11 04 00*15 00*480 = base 15 with 3
kept 15 = alloc i 9 -> base 4
kept 16 = fetch 5 -> waiting
kept 17 = store 6 42 -> stored
kept 18 = none
-- Base 0, bases whose first entry would stand at another place, and one whose would stand at the same
byte 0 0 = refused 0
byte 0 16 = refused 0
byte 0 30 = refused 0
byte 0 31 = read 0
-- A base past the last number
byte 7 64 = refused 7
-- An entry too few, an entry too many, and more than there are places
byte 8 0..255 = refused 0..2, read 3, refused 4..255
-- Bytes behind the count
byte 9..31 1 = refused 9..31
-- Place 0 with no entry, and with an ill-spelled one
byte 32 0 = refused 32
byte 33 1 = refused 33
-- Places with no entry, and what lies behind the places
byte 96..511 1 = refused 96..511
byte 543 1 = refused 543
byte 544..1023 1 = refused 544..1023
short = refused
read session 00*1024 = refused
-- A record of one version is none of the other.
read session 01 00*1023 = base 1 with 0
read session 01 00*4095 = refused
version 2 = 2
read session 01 00*1023 = refused
read session 01 00*4095 = base 1 with 0

# A full window of the first version has sixteen entries
-- The last of them has the last number that there is, and stands at place 0.
version 1 = 1
read session f1 ff*6 3f 10 00*23 05 00 06 00*5 0f 00*23 05 00 06 00*5 00 00*23 05 00 06 00*5 01 00*23 05 00 06 00*5 02 00*23 05 00 06 00*5 03 00*23 05 00 06 00*5 04 00*23 05 00 06 00*5 05 00*23 05 00 06 00*5 06 00*23 05 00 06 00*5 07 00*23 05 00 06 00*5 08 00*23 05 00 06 00*5 09 00*23 05 00 06 00*5 0a 00*23 05 00 06 00*5 0b 00*23 05 00 06 00*5 0c 00*23 05 00 06 00*5 0d 00*23 05 00 06 00*5 0e 00*23 00*480 = base 4611686018427387889 with 16
kept stores = 16
kept 4611686018427387889 = store 0 0 -> clash
kept 4611686018427387904 = store 0 15 -> clash
byte 8 0..255 = refused 0..15, read 16, refused 17..255

# The first version keeps no reset, and no reply to one
version 1 = 1
read session 01 00*7 01 00*23 00*32 03 00 09 00 07 00*27 00*928 = base 1 with 1
kept 1 = release 7 -> released
byte 64 0..255 = refused 0, read 1..7, refused 8..255
byte 66 0..255 = read 0..11, refused 12..255
read session 01 00*7 01 00*23 00*32 09 00 0c 00 07 00*27 00*928 = refused
