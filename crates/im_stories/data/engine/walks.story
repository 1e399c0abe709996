# The fast memory does what the plain one does, for fifty thousand random commands
-- Each is judged and answered alike; after each 500, and at the end, every cell with its block and its waiters is the
-- same in both, and every window with its entries. From seed 2026, of which more than a fifth are accepted.
walk 50000 from 2026 over 10000 = alike

# Nothing that was answered is lost, whatever stops the engine
-- Four hundred times an engine is stopped at any call of any turn, command, group of up to sixteen, also in a chain, or
-- opening, with a crash behind it. Each opening finds all that was answered, and besides at most the commands of the one call in doubt,
-- all of them. From seed 1989, over a thousand accepted.
wander 400 from 1989 over 1000 = nothing lost

# Nothing that was answered is lost, at whichever call the engine is stopped
-- Commands, groups, chains and turns from a seed, a hundred, stopped at each of their over two hundred calls of the disk in turn:
-- for good, with a crash that keeps all that wasn't synced, loses it, or leaves a byte a5 or 00 all over it; once, with a
-- crash that loses it; and once with a byte a5 over what was to be written, which the crash keeps. What is found then has
-- all that was answered, and of the call in doubt all commands or none; and it serves on.
explore 100 from 1 over 200 = nothing lost
explore 100 from 2 over 200 = nothing lost
