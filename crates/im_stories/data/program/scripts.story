# A script is its setup, and its parts in order
-- A slash is the end of a line. Blocks, parts and requests are counted from 0.
script setup / alloc x i 2 / = 2 lines
script element 1 / fetch x+0 / = 4 lines
script element 2 / store x+0 42 / = 6 lines
read = 1 blocks, 2 parts, 2 requests
blocks = i 2
parts = 1 2
request 0 = element 1, fetch block 0 + 0
request 1 = element 2, store block 0 + 0, 42

# A script may have no setup, and its numbers are read as they stand
-- What no memory has is for the memory to say. The last line needn't end.
script element 0 / alloc i 4096 / alloc i 1 / alloc i 0 / alloc m 4097 / = 5 lines
script element 1 / fetch 4096 / fetch 4294967295 = 7 lines
read = 0 blocks, 2 parts, 6 requests
blocks =
parts = 0 1
request 0 = element 0, alloc i 4096
request 1 = element 0, alloc i 1
request 2 = element 0, alloc i 0
request 3 = element 0, alloc m 4097
request 4 = element 1, fetch cell 4096
request 5 = element 1, fetch cell 4294967295

# Each word asks for its operation
-- Zeros may stand before a number, and a part may have no request.
script setup / alloc a0 m 007 / alloc b i 1 / = 3 lines
script element 63 / take b / put a0+1048575 18446744073709551615 / release a0 / store 00 1 / = 8 lines
script reset b+2 / reset 4294967295 / element 63 / = 11 lines
read = 2 blocks, 2 parts, 6 requests
blocks = m 7 i 1
parts = 63 63
request 0 = element 63, take block 1 + 0
request 1 = element 63, put block 0 + 1048575, 18446744073709551615
request 2 = element 63, release block 0 + 0
request 3 = element 63, store cell 0, 1
request 4 = element 63, reset block 1 + 2
request 5 = element 63, reset cell 4294967295

# Spaces, comments and empty lines say nothing
-- A tilde is a space more, and \t a tab.
read = 0 blocks, 0 parts, 0 requests
read / / = 0 blocks, 0 parts, 0 requests
read # a / #\tb / ~~# c / ~~~ / = 0 blocks, 0 parts, 0 requests
read # before / setup / = 0 blocks, 0 parts, 0 requests
read setup / alloc x i 1 = 1 blocks, 0 parts, 0 requests
read ~~setup~~ / ~alloc~~ x~ i~~ 1~ / element~~ 2 / ~~fetch~ x~ = 1 blocks, 1 parts, 1 requests

# A name has up to 16 characters, and may be a word of the grammar
read setup / alloc abcdefghijklmnop i 1 / = 1 blocks, 0 parts, 0 requests
read setup / alloc setup i 1 / alloc alloc m 1 / element 1 / fetch setup / = 2 blocks, 1 parts, 1 requests

# A part may have no request, and an element several parts
read element 000000000000000000000000000063 / = 0 blocks, 1 parts, 0 requests
read element 1 / element 2 / element 1 / fetch 0 / = 0 blocks, 3 parts, 1 requests

# A request has its place in a part, and the setup comes first and once
read read 0 / = refused 18 BadScript
read fetch 0 / = refused 18 BadScript
read alloc i 1 / = refused 18 BadScript
read alloc x i 1 / = refused 18 BadScript
read setup / fetch 0 / = refused 18 BadScript
read setup / alloc i 1 / = refused 18 BadScript
read setup / setup / = refused 18 BadScript
read setup x / = refused 18 BadScript
read element 1 / setup / = refused 18 BadScript
read setup / element 1 / setup / = refused 18 BadScript
read element 1 / alloc x i 1 / = refused 18 BadScript

# An element has one number, up to 63
read element / = refused 18 BadScript
read element 1 2 / = refused 18 BadScript
read element x / = refused 18 BadScript
read element 64 / = refused 18 BadScript
-- This one would be 1 if it were cut to 16 bits.
read element 65537 / = refused 18 BadScript

# Other words ask for nothing
read element 1 / read 0 / = refused 18 BadScript
read element 1 / glance 0 / = refused 18 BadScript
read element 1 / FETCH 0 / = refused 18 BadScript
read setup / reset 0 / = refused 18 BadScript
read element 1 / resets 0 / = refused 18 BadScript

# A request has just the words of its operation
read element 1 / fetch / = refused 18 BadScript
read element 1 / fetch 0 1 / = refused 18 BadScript
read element 1 / take / = refused 18 BadScript
read element 1 / take 0 1 / = refused 18 BadScript
read element 1 / release / = refused 18 BadScript
read element 1 / release 0 1 / = refused 18 BadScript
read element 1 / reset / = refused 18 BadScript
read element 1 / reset 0 1 / = refused 18 BadScript
read element 1 / store 0 / = refused 18 BadScript
read element 1 / store 0 1 2 / = refused 18 BadScript
read element 1 / put 0 / = refused 18 BadScript
read element 1 / put 0 1 2 / = refused 18 BadScript
read element 1 / alloc i / = refused 18 BadScript
read element 1 / alloc i 1 1 / = refused 18 BadScript

# A kind is one letter, i or m
read element 1 / alloc j 1 / = refused 18 BadScript
read element 1 / alloc I 1 / = refused 18 BadScript
read element 1 / alloc im 1 / = refused 18 BadScript

# Lengths and addresses have 32 bits, and values 64
read element 1 / alloc i 4294967296 / = refused 18 BadScript
read element 1 / fetch 4294967296 / = refused 18 BadScript
read element 1 / store 0 18446744073709551616 / = refused 18 BadScript
read element 1 / store 0 184467440737095516150 / = refused 18 BadScript

# A number has decimal digits alone
read element 1 / store 0 x / = refused 18 BadScript
read element 1 / fetch -1 / = refused 18 BadScript
read element 1 / fetch +1 / = refused 18 BadScript
read element 1 / fetch 0x10 / = refused 18 BadScript

# An offset stands behind a name of the setup, once, and goes up to 1,048,575
read element 1 / fetch 0+1 / = refused 18 BadScript
read element 1 / fetch x / = refused 18 BadScript
read setup / alloc x i 1 / element 1 / fetch xx / = refused 18 BadScript
read setup / alloc x i 1 / element 1 / fetch x+ / = refused 18 BadScript
read setup / alloc x i 1 / element 1 / fetch x+1048576 / = refused 18 BadScript
read setup / alloc x i 1 / element 1 / fetch x+1+1 / = refused 18 BadScript

# A name is given once, and begins with a small letter, and goes on with such letters and digits
read setup / alloc x i 1 / alloc x m 2 / = refused 18 BadScript
read setup / alloc 1x i 1 / = refused 18 BadScript
read setup / alloc X i 1 / = refused 18 BadScript
read setup / alloc a_b i 1 / = refused 18 BadScript
read setup / alloc abcdefghijklmnopq i 1 / = refused 18 BadScript
-- Two spaces are as one: there is no empty name.
read setup / alloc~ i 1 / = refused 18 BadScript

# A block of the setup has one length, of 32 bits
read setup / alloc x i 1 1 / = refused 18 BadScript
read setup / alloc x i 4294967296 / = refused 18 BadScript

# Words lie between spaces alone, and a comment has a line of its own
read element 1 / fetch\t0 / = refused 18 BadScript
read element 1\r / fetch 0\r / = refused 18 BadScript
read element 1 / fetch 0 # x / = refused 18 BadScript

# A script is ASCII, wherever its bytes stand
read # é / = refused 18 BadScript
read \x80 = refused 18 BadScript
read # \xff / = refused 18 BadScript
read element 1 / fetch 0\xa0 / = refused 18 BadScript

# A name stands for the base that its block got
script setup / alloc x m 3 / alloc y i 2 / alloc z m 1 / = 4 lines
script element 1 / fetch 9 / fetch y+1048575 / take z / put x+2 5 / alloc m 8 / fetch x+1 / reset y / = 12 lines
read = 3 blocks, 1 parts, 7 requests
-- The first two blocks have bases.
bases 3 65535 = 2 bases
request 0 = element 1, fetch cell 9
address 0 = 9
request 1 = element 1, fetch block 1 + 1048575
address 1 = 1114110
request 2 = element 1, take block 2 + 0
address 2 = none
operation 2 = none
request 3 = element 1, put block 0 + 2, 5
operation 3 = put 5 5
request 6 = element 1, reset block 1 + 0
operation 6 = reset 65535
-- The last base that there could be: no cell lies past it.
bases 4294967295 = 1 bases
request 5 = element 1, fetch block 0 + 1
address 5 = none
-- A block that is made needs no base.
bases = 0 bases
request 4 = element 1, alloc m 8
operation 4 = alloc m 8

# A number of 32 bits is read from decimal digits alone
u32 0004294967295 = 4294967295
u32 4294967296 = none
u32 "" = none
u32 +5 = none

# A fault tells the line, the word and what is expected there
read element 1 / # a remark / read 0 / = refused 18 BadScript
fault = line 3: 'read', where element, alloc, fetch, store, take, put, release or reset is expected
read element 64 / = refused 18 BadScript
fault = line 1: '64', where an element's number from 0 to 63 is expected
read element 1 / fetch / = refused 18 BadScript
fault = line 2: the line ends, where an address from 0 to 4294967295 or a name of the setup is expected
read element 1 / reset x / = refused 18 BadScript
fault = line 2: 'x', where an address from 0 to 4294967295 or a name of the setup is expected
read element 1 / store 0 1 2 / = refused 18 BadScript
fault = line 2: '2', where the end of the line is expected
read setup / alloc x i 1 / element 1 / fetch x+1048576 / = refused 18 BadScript
fault = line 4: 'x+1048576', where an offset from 0 to 1048575 behind the name's plus is expected
read setup / alloc x i 1 / alloc x i 1 / = refused 18 BadScript
fault = line 3: 'x', where a name that is not given yet is expected
read setup / alloc X i 1 / = refused 18 BadScript
fault = line 2: 'X', where a name of 1 to 16 characters a to z and 0 to 9, the first a letter is expected
read element 1 / alloc q 1 / = refused 18 BadScript
fault = line 2: 'q', where i or m is expected
read fetch 0 / = refused 18 BadScript
fault = line 1: 'fetch', where setup or element is expected
read element 1 / # caf\xe9 / = refused 18 BadScript
fault = line 2: 'caf\xe9', where ASCII, in a remark as elsewhere, is expected

# A carriage return, a byte-order mark, and a remark that is no line or no ASCII are named
read setup\r / = refused 18 BadScript
fault = line 1: the line ends in a carriage return: is it a Windows file?
read element 1 / fetch 0~\r / = refused 18 BadScript
fault = line 2: the line ends in a carriage return: is it a Windows file?
read \xef\xbb\xbfsetup / = refused 18 BadScript
fault = line 1: the line begins with a byte-order mark, which is no ASCII: save the file without one
read # caf\xc3\xa9 / = refused 18 BadScript
fault = line 1: 'caf\xc3\xa9', where ASCII, in a remark as elsewhere, is expected
read element 1 / fetch 0 # x / = refused 18 BadScript
fault = line 2: '#', where the end of the line is expected: a remark needs a line of its own
read element 1 / fetch #x / = refused 18 BadScript
fault = line 2: '#x', where an address from 0 to 4294967295 or a name of the setup is expected: a remark needs a line of its own
-- A remark may end in one: it says nothing.
read # x\r / = 0 blocks, 0 parts, 0 requests

# A line has 4,096 bytes at most, a remark too
numbered 1 to 1024 #### = 0 lines
read / = 0 blocks, 0 parts, 0 requests
numbered 1 to 1024 #### = 0 lines
read # / = refused 18 BadScript
fault = line 1: the line is too long
script element 1 / = 1 lines
numbered 1 to 1022 ~~~~ = 1 lines
read ~fetch~0 / = 0 blocks, 1 parts, 1 requests
script element 1 / = 1 lines
numbered 1 to 1022 ~~~~ = 1 lines
read ~~fetch~0 / = refused 18 BadScript
fault = line 2: the line is too long
