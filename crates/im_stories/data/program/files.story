# With no subcommand a short script is served on an image in memory
run imem = 0
printed = 4 lines
printed 0 = 0.1 base 0
printed 1 = 1.1 waiting
printed 2 = 2.1 stored
printed 3 = 1.1 now value 42

# A number out of its range is refused before a file is made
run imem format no_such_folder/a.img --cells 0 = 1
printed = 1 lines
printed 0 = refused 17 BadLimits
-- This would be 1 element if it were cut to 16 bits.
run imem format no_such_folder/a.img --elements 65537 = 1
printed = 1 lines
printed 0 = refused 17 BadLimits
file b.img = none
run imem format b.img --cells 0 = 1
printed = 1 lines
printed 0 = refused 17 BadLimits
file b.img = none

# A script is read before the image, which has to be there
run imem serial no_such_folder/a.img no_such_folder/s = 1
printed = 1 lines
printed 0 = refused 18 BadScript
run imem format no_such_folder/a.img --cells 1 --elements 1 --slots 16 = 1
printed = 1 lines
printed 0 = refused 8 Device
run imem inspect no_such_folder/a.img = 1
printed = 1 lines
printed 0 = refused 8 Device

# A script comes by standard input where its path is -
run imem format a.img --cells 64 --elements 4 --slots 16 = 0
script setup / alloc x i 2 / element 1 / fetch x+0 / element 2 / store x+0 42 / = 6 lines
run imem serial a.img - = 0
printed = 4 lines
printed 0 = 0.1 base 0
printed 1 = 1.1 waiting
printed 2 = 2.1 stored
printed 3 = 1.1 now value 42
-- One that asks nothing.
run imem serial a.img - = 0
printed = 0 lines
-- It is read as a file's is.
script element 1 / fetch / = 2 lines
run imem serial a.img - = 1
printed = 1 lines
printed 0 = refused 18 BadScript
-- A file's script doesn't take it.
script element 1 / fetch 9 / = 2 lines
save s = 18 bytes
script element 2 / fetch 9 / = 2 lines
run imem serial a.img s = 0
printed = 1 lines
printed 0 = 1.2 nocell
remove s = removed
remove a.img = removed

# Each line of a script may be told as an object
run imem format a.img = 0
script setup / alloc x i 2 / element 1 / fetch x+0 / fetch x+1 / element 2 / store x+0 42 / store x+0 43 / release 9 / = 9 lines
save s = 94 bytes
run imem serial a.img s --json = 0
printed = 8 lines
printed 0 = {"element":0,"number":"1","now":false,"reply":"base","base":"0"}
printed 1 = {"element":1,"number":"1","now":false,"reply":"waiting"}
printed 2 = {"element":1,"number":"2","now":false,"reply":"waiting"}
printed 3 = {"element":2,"number":"1","now":false,"reply":"stored"}
printed 4 = {"element":2,"number":"2","now":false,"reply":"clash"}
printed 5 = {"element":2,"number":"3","now":false,"reply":"noblock"}
printed 6 = {"element":1,"number":"1","now":true,"reply":"value","value":"42"}
printed 7 = {"element":1,"number":"2","now":true,"reply":"waiting"}
script element 2 / store 9 1 / alloc i 0 / put 0 7 / take 1 / = 5 lines
save s = 45 bytes
run imem serial a.img s --json = 0
printed = 4 lines
printed 0 = {"element":2,"number":"4","now":false,"reply":"nocell"}
printed 1 = {"element":2,"number":"5","now":false,"reply":"badlength"}
printed 2 = {"element":2,"number":"6","now":false,"reply":"wrongkind"}
printed 3 = {"element":2,"number":"7","now":false,"reply":"wrongkind"}
script element 1 / fetch 0 / = 2 lines
save s = 18 bytes
run imem serial a.img s --json = 0
printed = 1 lines
printed 0 = {"element":1,"number":"3","now":false,"reply":"clash"}
script element 1 / fetch 1 / = 2 lines
save s = 18 bytes
run imem serial a.img s --json = 0
printed = 2 lines
printed 0 = {"element":1,"number":"4","now":false,"reply":"waiting"}
printed 1 = {"element":1,"number":"4","now":true,"reply":"waiting"}
remove s = removed
remove a.img = removed

# So may a refusal
run imem format a.img = 0
script element 70 / fetch 0 / = 2 lines
save s = 19 bytes
run imem serial a.img s --json = 1
printed = 1 lines
printed 0 = {"refused":{"code":18,"name":"BadScript"}}
run imem serial none.img s --json --statuses = 1
printed = 1 lines
printed 0 = {"refused":{"code":18,"name":"BadScript"}}
remove s = removed
remove a.img = removed

# Quietly, a refusal alone is told
run imem format a.img = 0
script setup / alloc x i 2 / element 1 / fetch x+0 / fetch x+1 / element 2 / store x+0 42 / store x+0 43 / release 9 / = 9 lines
save s = 94 bytes
run imem serial a.img s --quiet = 0
printed = 0 lines
script element 70 / fetch 0 / = 2 lines
save s = 19 bytes
run imem serial a.img s --quiet = 1
printed = 1 lines
printed 0 = refused 18 BadScript
remove s = removed
remove a.img = removed

# A strict script ends with 6 if a reply is an error of it
run imem format a.img = 0
script setup / alloc x i 2 / element 1 / fetch x+1 / store x+0 42 / fetch x+0 / = 6 lines
save s = 61 bytes
run imem serial a.img s --strict = 0
script element 2 / store 0 43 / = 2 lines
save s = 21 bytes
run imem serial a.img s = 0
run imem serial a.img s --strict = 6
printed = 1 lines
printed 0 = 2.2 clash
run imem serial a.img s --strict --quiet = 6
printed = 0 lines
-- So it does if the image had that reply.
run imem format b.img = 0
run imem serial b.img s --once --strict = 6
run imem serial b.img s --once --strict = 6
printed = 1 lines
printed 0 = 2.1 nocell
-- A refusal has its own status.
script element 2 / store 0 43 / element 20 / fetch 0 / = 4 lines
save s = 40 bytes
run imem serial a.img s --strict = 1
remove s = removed
remove a.img = removed
remove b.img = removed

# A refusal has its number and its name
refuse no memory = 1
printed = 1 lines
printed 0 = refused 10 NoMemory

# A memory is kept in a file, from one run of the program to the next
run imem format a.img = 0
printed = 0 lines
load a.img = 450560 bytes
bytes 0 16 = a5 00 02 00 49 4d 45 4d 01 00 00 00 00 00 00 00
bytes 16 16 = 00 00 00 00 00 00 00 00 00 10 00 00 10 00 00 00
bytes 32 16 = 00 01 00 00 00 00 00 00 00 00 00 00 00 00 00 00
bytes 48 16 = 00 00 00 00 00 00 00 00 00 00 00 00 00 00 00 00
bytes 4096 1 = 00
script # A fetch comes before its store, and is answered when the store comes. / = 1 lines
script setup / alloc x i 2 / element 1 / fetch x+0 / element 2 / store x+0 42 / = 7 lines
save first_fetch.script = 133 bytes
run imem serial a.img first_fetch.script = 0
printed = 4 lines
printed 0 = 0.1 base 0
printed 1 = 1.1 waiting
printed 2 = 2.1 stored
printed 3 = 1.1 now value 42
load a.img = 450560 bytes
-- The slots of the first command, and of the third.
bytes 434176 16 = a5 01 01 00 00 00 00 00 00 00 00 00 00 00 00 00
bytes 434192 16 = 01 00 00 00 00 00 00 00 02 00 00 00 00 00 00 00
bytes 434208 16 = 00 00 00 00 00 00 00 00 00 00 00 00 00 00 00 00
bytes 434224 16 = 00 00 00 00 00 00 00 00 00 00 00 00 00 00 00 00
bytes 434304 16 = a5 01 05 00 02 00 00 00 02 00 00 00 00 00 00 00
bytes 434320 16 = 01 00 00 00 00 00 00 00 00 00 00 00 00 00 00 00
bytes 434336 16 = 2a 00 00 00 00 00 00 00 00 00 00 00 00 00 00 00
bytes 434352 16 = 00 00 00 00 00 00 00 00 00 00 00 00 00 00 00 00
run imem inspect a.img = 0
printed = 12 lines
printed 0 = version 2
printed 1 = limits 4096 16 256
printed 2 = header 0 generation 1 area 0 count 0
printed 3 = journal 3 room 253
printed 4 = block 0 i 2
printed 5 = cell 0 full 42
printed 6 = element 0 base 1 kept 1
printed 7 = entry 0.1 alloc i 2 -> base 0
printed 8 = element 1 base 1 kept 1
printed 9 = entry 1.1 fetch 0 -> value 42
printed 10 = element 2 base 1 kept 1
printed 11 = entry 2.1 store 0 42 -> stored
script # On the image that first_fetch.script left: the value is still there. / element 1 / fetch 0 / = 3 lines
save second_fetch.script = 89 bytes
run imem serial a.img second_fetch.script = 0
printed = 1 lines
printed 0 = 1.2 value 42
run imem inspect a.img = 0
printed = 13 lines
printed 0 = version 2
printed 1 = limits 4096 16 256
printed 2 = header 0 generation 1 area 0 count 0
printed 3 = journal 4 room 252
printed 4 = block 0 i 2
printed 5 = cell 0 full 42
printed 6 = element 0 base 1 kept 1
printed 7 = entry 0.1 alloc i 2 -> base 0
printed 8 = element 1 base 1 kept 2
printed 9 = entry 1.1 fetch 0 -> value 42
printed 10 = entry 1.2 fetch 0 -> value 42
printed 11 = element 2 base 1 kept 1
printed 12 = entry 2.1 store 0 42 -> stored
file a.img = 450560 bytes
remove a.img = removed
remove first_fetch.script = removed
remove second_fetch.script = removed

# An image is made over an older file, of its own length
script element 1 / fetch 0 / = 2 lines
save a.img = 18 bytes
run imem format a.img --cells 1 --elements 1 --slots 16 = 0
printed = 0 lines
file a.img = 33792 bytes
run imem inspect a.img = 0
printed = 4 lines
printed 0 = version 2
printed 1 = limits 1 1 16
printed 2 = header 0 generation 1 area 0 count 0
printed 3 = journal 0 room 16
remove a.img = removed

# A script that isn't in the grammar leaves the image as it was
run imem format a.img = 0
load a.img = 450560 bytes
mark = 450560 bytes
script element 1 / read 0 / = 2 lines
save bad.script = 17 bytes
run imem serial a.img bad.script = 1
printed = 1 lines
printed 0 = refused 18 BadScript
load a.img = 450560 bytes
as marked = yes
remove a.img = removed
remove bad.script = removed

# A file that is one byte short is refused, and left as it was
run imem format a.img = 0
load a.img = 450560 bytes
cut 450559 = 450559 bytes
keep short.img = 450559 bytes
mark = 450559 bytes
script element 1 / fetch 0 / = 2 lines
save fetch.script = 18 bytes
run imem inspect short.img = 1
printed = 1 lines
printed 0 = refused 12 WrongLength
run imem serial short.img fetch.script = 1
printed = 1 lines
printed 0 = refused 12 WrongLength
load short.img = 450559 bytes
as marked = yes
cut 100 = 100 bytes
keep short.img = 100 bytes
run imem serial short.img fetch.script = 1
printed = 1 lines
printed 0 = refused 12 WrongLength
file short.img = 100 bytes
remove a.img = removed
remove short.img = removed
remove fetch.script = removed

# Only a regular file is an image
script element 1 / fetch 0 / = 2 lines
save fetch.script = 18 bytes
run imem format . = 1
printed = 1 lines
printed 0 = refused 8 Device
run imem serial . fetch.script = 1
printed = 1 lines
printed 0 = refused 8 Device
run imem inspect . = 1
printed = 1 lines
printed 0 = refused 8 Device
run imem format /dev/full = 1
printed = 1 lines
printed 0 = refused 8 Device
run imem serial /dev/full fetch.script = 1
printed = 1 lines
printed 0 = refused 8 Device
run imem inspect /dev/full = 1
printed = 1 lines
printed 0 = refused 8 Device
remove fetch.script = removed

# Of a file that can't be opened or read the system's reason is told
try serial no_such_folder/a.img no_such_folder/s = refused
told = 1 lines
told 0 = the script can't be read: there is no such file
try inspect no_such_folder/a.img = refused
told 0 = its folder isn't there
try format no_such_folder/a.img = refused
told 0 = its folder isn't there
try inspect no_such_file = refused
told 0 = there is no such file
try inspect . = refused
told 0 = it is a folder
try format /dev/full = refused
told 0 = it is no ordinary file
script element 1 / read 0 / = 2 lines
save bad.script = 17 bytes
try serial no_such_folder/a.img bad.script = refused
told 0 = line 2: 'read', where element, alloc, fetch, store, take, put, release or reset is expected
remove bad.script = removed

# A file that is there is left as it is where a new one is asked for
run imem format a.img --new --cells 1 --elements 1 --slots 16 = 0
run imem serial a.img no_such_file = 1
file a.img = 33792 bytes
run imem format a.img --new --cells 1 --elements 1 --slots 17 = 1
printed 0 = refused 8 Device
file a.img = 33792 bytes
run imem format a.img --cells 1 --elements 1 --slots 17 = 0
file a.img = 33856 bytes
remove a.img = removed

# A refusal ends by its kind where that is asked for
run imem inspect a.img = 1
run imem inspect a.img --statuses = 5
run imem format a.img --statuses --cells 0 = 1
run imem format a.img --statuses --cells 1 --elements 1 --slots 16 = 0
run imem format a.img --statuses --new = 1
run imem serial a.img no_such_file --statuses = 5
printed 0 = refused 18 BadScript
run imem inspect a.img --statuses = 0
remove a.img = removed
script my thesis / = 1 lines
save a.img = 10 bytes
run imem inspect a.img --statuses = 5
printed 0 = refused 12 WrongLength
remove a.img = removed
