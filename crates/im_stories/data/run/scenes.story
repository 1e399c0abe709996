-- Scenes: a title, and what happens. Behind them stand the scripts, each under its name, and the requests of those that
-- are stopped: there their blocks lie from address 0 on.

-- A server that waits for a store that nobody sends is stalled. The store of a later run answers it.
# a fetch without its store
new
run waits
report

# the store in a later run
run stores
report

-- What earlier scripts left is told before it is confirmed. What waited is told at the end, if it is still kept.
# a fetch that waited, and is kept
new
run waits
owed stores

# a take that waited: its value is nowhere else, and its window is full
new
run takes
owed asks much
report windows

# an answer that is of no plan
new
run first
owed-plan wide
report windows

# an answer of the script itself, which is told first
new
run first
once-owed long
report windows

-- A fetch and its store, by two servers. A gate may hold one back.
# a fetch and its store, by two servers in any order
new
run both
report

# two_servers: the fetch is held until the store is answered
new
run both after 2
report
held 1 was held until 2 was answered

# the store is held until the fetch is answered, which waits
new
run both after 1
report
held 2 was held until 1 was answered

-- Glances, which wait for nobody, in their place among the element's requests.
# glances of a cell that is full, of one that is empty, and of one that clashed
new
run glances

# strictly: a clash ends it with status 6
new
strict glances

# strictly, where no reply is an error
new
strict first

# a glance behind a confirmed fetch, beside the writer
new
run reads
report windows

# glances round a reset
new
run resets

-- An element that doesn't exist is refused after the setup, before a request of any element.
# an element that is not there is refused before any is served
new
run no reader
report

# one that only glances, too
new
run no glancer
report

# one whose part has no line, too
new
run no line
report

-- Whoever is refused then, the observer is told about the disk.
# a call of the disk fails: the observer is told of it
new
fault asks

-- Plans, which have the same results in any order, and scripts that are no plans.
# a plan, in any order
new
plan plan

# two_servers: its fetches are held until a store is answered
new
plan plan after 2
held 1 was held until 2 was answered

# its stores are held until a fetch is answered, which waits
new
plan plan after 1
held 2 was held until 1 was answered

# no plan: two stores to one cell
new
plan stored twice

# no plan: a block is made
new
plan makes a block

# no plan: a block is reset
new
plan resets a block

# an element that is not there, before what is no plan
new
plan no element

# a plan of element 0, whose numbers go on, and of which a fetch waits
new
plan goes on

# a plan does not fit where a cell is waited for
new
run waits
plan stores
report

-- Scripts that are run once. Those that wait are sent again.
# what waited is sent again, and answered since
new
once waits
once waits
run stores
once waits
report windows

# another script used the image
new
run stores
once both
report

-- Two cells with one store each have one end, and two stores to one cell have two. So have two puts behind each
-- other: the take comes between them or it doesn't. Of two puts and two takes of four elements each take has one or
-- the other value, or both puts come first, and one of them clashes. Two blocks lie one behind the other. Behind
-- the window's end all before it is confirmed.
# plan: stopped and gone on with until its end
again plan 45

# two stores to one cell: stopped and gone on with until an end
again stored twice 45 by 3

# two puts and a take: stopped and gone on with until an end
again puts 39 by 3

# two puts and two takes: stopped and gone on with until an end
again crowd 48 by 3

# two blocks: stopped and gone on with until an end
again blocks 24 by 2

# a reset between two stores: stopped and gone on with until its end
again round 84 by 4

# more requests than a window has: stopped and gone on with until its end
again long 700 by 100

-- Plans that are gone on with. Of the second one requests are confirmed before the end.
# plan: as a plan, stopped and gone on with until its end
again-plan plan 45

# more requests of a plan than a window has: stopped and gone on with until its end
again-plan long 700 by 100

# a cell of a plan that is full before its store is served: it isn't under way
new
once-plan waits
run fills
once-plan both

-- Traces, where the order is fixed.
# the trace of a fetch that waits
new
trace both after 1

# the trace of a fetch behind its store
new
trace both after 2

# the trace of a setup whose last block is not made
new
trace no block

# an image of the first version is not run on
old
run both
report

script waits
# A fetch without its store.
setup
alloc x i 1
element 1
fetch x

script stores
# The store, in a later run.
element 2
store 0 6

script fills
# A store of an element that no other script names.
element 4
store 0 9

script both
# Both in one run, by two servers.
setup
alloc x i 1
element 1
fetch x
element 2
store x 5

script glances
# A server that glances at what it stored, at what nobody stored, and at what it made clash.
setup
alloc x i 2
element 1
store x 5
glance x
glance x+1
store x 5
glance x

script resets
# A server that glances around a reset: at what it stored before, at what the reset emptied, and at what it stored
# after.
setup
alloc x i 2
element 1
store x 5
glance x
reset x
glance x
store x 6
glance x
fetch x
reset x+1

script reads
# A reader whose window is full before its last request. The fetch before the store is awaited, and confirmed with all
# after it. What was shown then has the store.
setup
alloc x i 1
element 1
glance x+1
fetch x
# As many fetches of an address in no block as a window has entries, and the rest.
repeat 64 fetch x+1
glance x
element 2
store x 5
glance x
element 3
glance 4095
glance 4294967295

script plan
setup
alloc x i 2
element 1
fetch x
fetch x+1
element 2
store x 5
store x+1 6
element 3
fetch x
fetch 9

requests plan
0.1 alloc i 2
1.1 fetch 0
1.2 fetch 1
2.1 store 0 5
2.2 store 1 6
3.1 fetch 0
3.2 fetch 9

script stored twice
setup
alloc x i 2
element 2
store x 5
element 3
store x 7

requests stored twice
0.1 alloc i 2
2.1 store 0 5
3.1 store 0 7

script makes a block
# No plan, an element makes a block.
element 1
fetch 0
alloc i 1

script resets a block
# No plan, an element resets a block.
setup
alloc x i 1
element 1
fetch x
reset x

script no element
# An element that doesn't exist, after one that takes.
element 1
take 0
element 16
fetch 0

script no reader
# An element that doesn't exist, after a setup and one that stores.
setup
alloc x i 1
element 1
store x 5
element 16
fetch x

script no line
# An element that doesn't exist, with no line, and one that does.
setup
alloc x i 1
element 20
element 1
fetch x

script no glancer
# An element that doesn't exist and only glances.
element 1
fetch 0
element 63
glance 0

script goes on
# The numbers of element 0 continue after those of the setup. Nobody stores to one of the cells.
setup
alloc x i 2
element 0
store x+1 8
fetch x+1
glance x+1
fetch x

script asks
# Requests of three elements.
element 1
fetch 0
fetch 1
element 2
fetch 0
fetch 1
element 3
fetch 0
fetch 1

script no block
# A setup whose last block isn't made.
setup
alloc x m 2
alloc y i 0

script puts
setup
alloc x m 1
element 1
put x 5
put x 6
element 2
take x

requests puts
0.1 alloc m 1
1.1 put 0 5
1.2 put 0 6
2.1 take 0

script crowd
setup
alloc x m 1
element 1
take x
element 2
take x
element 3
put x 5
element 4
put x 6

requests crowd
0.1 alloc m 1
1.1 take 0
2.1 take 0
3.1 put 0 5
4.1 put 0 6

script blocks
element 1
alloc i 1
element 2
alloc m 2

requests blocks
1.1 alloc i 1
2.1 alloc m 2

script round
setup
alloc x i 1
alloc y i 1
element 1
store x 5
reset x
store x 6
fetch x
element 2
fetch y
element 3
store y 7

requests round
0.1 alloc i 1
0.2 alloc i 1
1.1 store 0 5
1.2 reset 0
1.3 store 0 6
1.4 fetch 0
2.1 fetch 1
3.1 store 1 7

script takes
# A take without its put.
setup
alloc m m 1
alloc x i 1
element 1
take m

script asks much
# More requests than a window has, behind one of an earlier script that another element answers.
element 1
store 1 7
repeat 65 fetch 1
element 2
put 0 42

script first
# A store alone.
setup
alloc x i 1
element 1
store x 5

script wide
# More requests of a plan than a window has, of another cell.
setup
alloc y i 1
element 1
store y 8
repeat 64 fetch y

script long
setup
alloc x i 1
element 1
store x 5
repeat 69 fetch x

requests long
0.1 alloc i 1
1.1 store 0 5
repeat 69 1.2 fetch 0
