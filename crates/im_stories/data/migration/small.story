# A stop at any call leaves no image, or the whole of a small one in which two requests wait
old image 2 2 16 = 33792 bytes
-- Three commands are on the pages: two requests wait at cell 0, that of element 1 first. Cell 1 is free.
old write 16 03 = 03
old write 8192 02 01 = 0201
old write 8200 01 00 00 00 00 00 00 00 01 00 00 00 = 010000000000000001000000
old write 12288 01 00 00 00 01 00 01 00 01 = 010000000100010001
old write 12304 ff ff ff ff 00 00 01 00 02 = ffffffff0000010002
old write 16384 01 00 00 00 00 00 00 00 02 = 010000000000000002
old write 16448 01 00 01 00 01 = 0100010001
old write 16480 04 = 04
old write 17408 01 00 00 00 00 00 00 00 01 = 010000000000000001
old write 17472 04 = 04
new disk 41984 = 41984 bytes
in each stop lost = 38 refused 13 NoHeader then migrated 3
in each stop kept = 37 refused 13 NoHeader then migrated 3, 1 count 3 room 16 then refused 22 NotBlank
in each stop a5 = 36 refused 13 NoHeader then migrated 3, 2 count 3 room 16 then refused 22 NotBlank
in each stop 00 = 38 refused 13 NoHeader then migrated 3
-- One failing call, and the same file or a crash behind it.
in each once = 37 refused 13 NoHeader then migrated 3, 1 count 3 room 16 then refused 22 NotBlank
in each once lost = 38 refused 13 NoHeader then migrated 3
in each scar:a5 = 36 refused 13 NoHeader then migrated 3, 2 count 3 room 16 then refused 22 NotBlank
in each scar:00 = 37 refused 13 NoHeader then migrated 3, 1 count 3 room 16 then refused 22 NotBlank
in each scar:a5 lost = 38 refused 13 NoHeader then migrated 3
in each scar:a5 kept = 36 refused 13 NoHeader then migrated 3, 2 count 3 room 16 then refused 22 NotBlank
in each scar:5a a5 = 36 refused 13 NoHeader then migrated 3, 2 count 3 room 16 then refused 22 NotBlank
-- A call of the old file that fails leaves the new one as it was.
in each stop of old = 4 refused 13 NoHeader then migrated 3
in each once of old lost = 4 refused 13 NoHeader then migrated 3

# The same of a file that held other bytes
old image 2 2 16 = 33792 bytes
-- Three commands are on the pages: two requests wait at cell 0, that of element 1 first. Cell 1 is free.
old write 16 03 = 03
old write 8192 02 01 = 0201
old write 8200 01 00 00 00 00 00 00 00 01 00 00 00 = 010000000000000001000000
old write 12288 01 00 00 00 01 00 01 00 01 = 010000000100010001
old write 12304 ff ff ff ff 00 00 01 00 02 = ffffffff0000010002
old write 16384 01 00 00 00 00 00 00 00 02 = 010000000000000002
old write 16448 01 00 01 00 01 = 0100010001
old write 16480 04 = 04
old write 17408 01 00 00 00 00 00 00 00 01 = 010000000000000001
old write 17472 04 = 04
new disk 41984 of 5a = 41984 bytes
in each stop lost = 38 refused 13 NoHeader then migrated 3
in each stop kept = 37 refused 13 NoHeader then migrated 3, 1 count 3 room 16 then refused 22 NotBlank
in each stop a5 = 36 refused 13 NoHeader then migrated 3, 2 count 3 room 16 then refused 22 NotBlank

# A stop of the whole migration is one answer, and the new file is begun again
old image 4096 16 256 = 327680 bytes
old write 311296 a5 01 01 = a50101
old write 311312 01 00 00 00 00 00 00 00 02 = 010000000000000002
old write 311360 a5 01 04 00 01 00 00 00 01 = a50104000100000001
old write 311376 01 = 01
old write 311424 a5 01 05 00 02 00 00 00 02 = a50105000200000002
old write 311440 01 = 01
old write 311456 2a = 2a
new disk 450560 = 450560 bytes
new fuse 100 stop = set
migrate = refused 8 Device
calls = 4 and 101
new crash a5 = crashed
new opening = refused 13 NoHeader
migrate = migrated 3
new means old = yes
new opening = count 3 room 256
-- The old file fails while it is read.
new disk 450560 = 450560 bytes
mark = marked
old fuse 2 once = set
migrate = refused 8 Device
calls = 3 and 0
new as marked = yes
