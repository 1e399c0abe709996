# A stop within the turns of a checkpoint that leaves a write torn, or one fault, loses nothing
-- The 61 turns behind a full journal make 80 calls. After a stop in any of them, and a crash that leaves a byte all over what was in doubt, all
-- sixteen commands are found; sent again, they are answered as they were, and none acts.
format 4096 16 16 = formatted
16 times 1.1 fetch 0 = nocell x16
in each turn stop 00 = 16 x80
in each turn stop a5 = 16 x80
-- One fault in any of them, with no crash: the same disk is opened again.
in each turn once = 16 x80
