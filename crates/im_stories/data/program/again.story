# A script that is stopped is done by the same call
disk 450560 = 450560 bytes
format 4096 16 256 = formatted
script setup / alloc x i 2 / element 1 / fetch x+0 / element 2 / store x+0 42 / = 6 lines
read = 1 blocks, 2 parts, 2 requests
-- Each time the disk stops in the midst of the second command.
serve once stopped 6 calls past the opening = 0
count = 3
serve once = 0
printed = 3 lines
printed 0 = 0.1 base 0
printed 1 = 1.1 value 42
printed 2 = 2.1 stored
count = 3

# Another script used the image
disk 450560 = 450560 bytes
format 4096 16 256 = formatted
read element 1 / alloc i 2 / store 0 42 / = 0 blocks, 1 parts, 2 requests
serve once = 0
read element 1 / alloc i 2 / store 0 43 / = 0 blocks, 1 parts, 2 requests
serve once = 1
printed = 1 lines
printed 0 = refused 4 Mismatch
count = 2
