# Two lists take their nodes from one table, and a node that is given back serves the other list
arena 3 nodes 2 lists = made
lists = 2
nodes = 3
list 0 push 1.1 = true
list 1 push 1.2 = true
list 0 push 1.3 = true
free = 0
full = true
list 1 push 1.4 = false
-- The first waiter of list 0 goes, and its node takes the waiter that had no room.
list 0 pop = 1.1
list 1 push 1.4 = true
list 0 length = 1
list 0 front = 1.3
list 1 length = 2
list 1 empty = false
list 1 front = 1.2
list 1 at 1 = 1.4
list 1 at 2 = none
list 0 pop = 1.3
list 0 pop = none
list 0 ends = none
list 0 empty = true

# The first waiter of one list goes, another one comes to the end of another list, and the third list stays
arena 4 nodes 3 lists = made
list 0 push 1.1 = true
list 0 push 1.2 = true
list 2 push 4.1 = true
hand over 0 1 2.1 = 1.1
list 0 length = 1
list 0 front = 1.2
list 1 length = 1
list 1 front = 2.1
list 2 length = 1
list 2 front = 4.1
free = 1
hand over 0 1 2.2 = 1.2
list 0 empty = true
list 1 at 1 = 2.2
-- Nobody is left on list 0, so nobody comes to list 2.
hand over 0 2 3.1 = none
list 2 length = 1
free = 1

# An arena without nodes is full from the beginning
arena 0 nodes 1 lists = made
full = true
list 0 push 1.1 = false
list 0 pop = none

# Thrown pushes and pops do to four lists what they do to four plain queues
-- After each call every list is read by its places, by a walk, and by the links of its nodes, and nodes are counted.
arena 12 nodes 4 lists = made
walk 20000 from 1 = 20000 steps agree
lists = 4
