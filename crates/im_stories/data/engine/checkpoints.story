# A stop within the turns of a checkpoint loses nothing
-- The 61 turns behind a full journal make 80 calls. After a stop in any of them, and a crash, all sixteen commands are
-- found; sent again, they are answered as they were, and none acts.
format 4096 16 16 = formatted
16 times 1.1 fetch 0 = nocell x16
in each turn stop kept = 16 x80
in each turn stop lost = 16 x80

# A stop within any call of a run with sweeps loses nothing
-- Sixteen commands make 64 calls, the turns of a checkpoint of four pages ten, the sweeps behind it 6 and 12, the last command four. What was
-- acknowledged is found, and the command in doubt where its gate was written and kept.
format 3 2 16 = formatted
plan 16 times 1.1 fetch 0 = 16 events
plan sweep 64 = 17 events
plan 6 turns = 23 events
plan sweep 64 = 24 events
plan turn = 25 events
plan sweep 5 = 26 events
plan sweep 64 = 27 events
plan 0.1 fetch 0 = 28 events
in each run stop kept = 0 x3, 1 x4, 2 x4, 3 x4, 4 x4, 5 x4, 6 x4, 7 x4, 8 x4, 9 x4, 10 x4, 11 x4, 12 x4, 13 x4, 14 x4, 15 x4, 16 x32, 17
in each run stop lost = 0 x4, 1 x4, 2 x4, 3 x4, 4 x4, 5 x4, 6 x4, 7 x4, 8 x4, 9 x4, 10 x4, 11 x4, 12 x4, 13 x4, 14 x4, 15 x4, 16 x32
in each run stop a5 = 0 x2, 1 x4, 2 x4, 3 x4, 4 x4, 5 x4, 6 x4, 7 x4, 8 x4, 9 x4, 10 x4, 11 x4, 12 x4, 13 x4, 14 x4, 15 x4, 16 x32, 17 x2
in each run stop 00 = 0 x4, 1 x4, 2 x4, 3 x4, 4 x4, 5 x4, 6 x4, 7 x4, 8 x4, 9 x4, 10 x4, 11 x4, 12 x4, 13 x4, 14 x4, 15 x4, 16 x32
