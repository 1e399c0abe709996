# A stop at any call leaves no image, or the whole of it
-- Of 425 calls of the new file the last three are a sync, the gate, a sync.
old image 4096 16 256 = 327680 bytes
old write 311296 a5 01 01 = a50101
old write 311312 01 00 00 00 00 00 00 00 02 = 010000000000000002
old write 311360 a5 01 04 00 01 00 00 00 01 = a50104000100000001
old write 311376 01 = 01
old write 311424 a5 01 05 00 02 00 00 00 02 = a50105000200000002
old write 311440 01 = 01
old write 311456 2a = 2a
new disk 450560 = 450560 bytes
in each stop lost = 425 refused 13 NoHeader then migrated 3
in each stop kept = 424 refused 13 NoHeader then migrated 3, 1 count 3 room 256 then refused 22 NotBlank
in each stop a5 = 423 refused 13 NoHeader then migrated 3, 2 count 3 room 256 then refused 22 NotBlank
