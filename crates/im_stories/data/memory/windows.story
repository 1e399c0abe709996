# A request is judged by what is kept under its number
windows 16 = made
elements = 16
keep base 0 for 0.1 alloc i 1 = fresh
keep waiting for 1.1 fetch 0 = fresh
keep waiting for 1.1 fetch 0 = repeat waiting
keep waiting for 1.1 fetch 1 = refused 4 Mismatch
keep waiting for 1.3 fetch 0 = refused 1 Gap
keep waiting for 1.0 fetch 0 = refused 2 Forgotten
keep waiting for 16.1 fetch 0 = refused 5 NoElement
keep stored for 2.1 store 0 3 = fresh
answer 1.1 value 3 = answered
keep waiting for 1.1 fetch 0 = repeat value 3
kept 1.1 = fetch 0 -> value 3
kept 1.2 = none

# A full window has room after a confirmation
windows 16 = made
keep waiting for 1.1 to 64 fetch 0 = fresh
keep waiting for 1.65 fetch 0 = refused 3 WindowFull
-- What waits can't be forgotten, nor what isn't there.
confirm 1 2 = refused 6 NotAnswered
confirm 1 66 = refused 1 Gap
confirm 16 1 = refused 5 NoElement
answer 1.1 to 64 value 8 = answered
window 1 = 1 65
confirm 1 65 = confirmed
keep waiting for 1.1 fetch 0 = refused 2 Forgotten
keep value 8 for 1.65 fetch 0 = fresh
-- Leave that was given before changes nothing.
confirm 1 1 = confirmed
window 1 = 65 66
entry 1.64 = refused 2 Forgotten
entry 1.65 = value 8
entry 1.66 = refused 1 Gap
entry 16.1 = refused 5 NoElement
window 16 = refused 5 NoElement

# No number is past the last one, which is 4611686018427387904
windows 1 = made
restore 0 from 4611686018427387903 = 0 entries
keep value 4611686018427387903 for 0.4611686018427387903 fetch 0 = fresh
keep value 4611686018427387905 for 0.4611686018427387905 fetch 0 = refused 1 Gap
keep value 4611686018427387904 for 0.4611686018427387904 fetch 0 = fresh
keep value 4611686018427387905 for 0.4611686018427387905 fetch 0 = refused 1 Gap
keep value 18446744073709551615 for 0.18446744073709551615 fetch 0 = refused 1 Gap
keep value 4611686018427387904 for 0.4611686018427387904 fetch 0 = repeat value 4611686018427387904
window 0 = 4611686018427387903 4611686018427387905
entry 0.4611686018427387904 = value 4611686018427387904
confirm 0 4611686018427387906 = refused 1 Gap
confirm 0 18446744073709551615 = refused 1 Gap
confirm 0 4611686018427387905 = confirmed
window 0 = 4611686018427387905 4611686018427387905
keep value 0 for 0.4611686018427387905 fetch 0 = refused 1 Gap
keep value 0 for 0.4611686018427387904 fetch 0 = refused 2 Forgotten

# Thrown calls do to windows what they do to windows that are kept plainly
windows 3 = made
walk 20000 from 88172645463325252 = 20000 steps agree
-- The windows have moved far, past many entries.
past 500 = 3 windows

# Thrown calls go on though the windows are restored, after one in ten of them
windows 3 restored = made
walk 5000 from 2463534242 = 5000 steps agree

# A restored window goes on where it stood, and the others are as they were
windows 3 = made
show base 0 for alloc i 1 = shown
show waiting for fetch 0 = shown
show clash for store 1 4 = shown
restore 1 from 30 = 3 entries
window 1 = 30 33
keep waiting for 1.29 fetch 0 = refused 2 Forgotten
keep waiting for 1.30 alloc i 1 = repeat base 0
keep waiting for 1.31 fetch 0 = repeat waiting
keep waiting for 1.31 fetch 1 = refused 4 Mismatch
keep waiting for 1.32 store 1 4 = repeat clash
keep waiting for 1.34 fetch 2 = refused 1 Gap
keep waiting for 1.33 fetch 2 = fresh
keep waiting for 1.33 fetch 2 = repeat waiting
confirm 1 32 = refused 6 NotAnswered
answer 1.31 value 4 = answered
entry 1.31 = value 4
confirm 1 32 = confirmed
window 1 = 32 34
window 0 = 1 1
window 2 = 1 1

# A window is restored at each place of its ring, with each number of entries
-- From 1 to 130 on, with none to 64 entries: each entry is there, and none is before them or behind; a new request is
-- fresh, or refused with WindowFull behind 64.
windows 1 = made
restore each = 8450 windows go on

# A window is restored behind the last number, and up to it
windows 1 = made
restore 0 from 4611686018427387905 = 0 entries
window 0 = 4611686018427387905 4611686018427387905
keep waiting for 0.4611686018427387905 fetch 0 = refused 1 Gap
-- They have the values 100 to 163.
show 64 fetches = shown
restore 0 from 4611686018427387841 = 64 entries
entry 0.4611686018427387904 = value 163
confirm 0 4611686018427387905 = confirmed
window 0 = 4611686018427387905 4611686018427387905
