# The least image is opened at no other length
-- It has 33,792 bytes. Each length in turn: cut short, as it is, and longer by a zero.
format 1 1 16 = formatted
close = closed
in each length 0 to 33793 = refused 12 WrongLength 0..33791, opened 33792, refused 12 WrongLength 33793

# Each value of each byte of a header counts
-- What an opening comes to for each of the 256 values, told where it changes.
format 1 1 16 = formatted
close = closed
-- The gate is open at 165. The area, the version, and the letters IMEM.
in each value of 0 to 0 = refused 13 NoHeader 0..164, opened 165, refused 13 NoHeader 166..255
in each value of 1 to 1 = opened 0, refused 14 BadHeader 1..255
in each value of 2 to 2 = refused 14 BadHeader 0, refused 21 OldVersion 1, opened 2, refused 14 BadHeader 3..255
in each value of 3 to 3 = opened 0, refused 14 BadHeader 1..255
in each value of 4 to 4 = refused 14 BadHeader 0..72, opened 73, refused 14 BadHeader 74..255
in each value of 5 to 5 = refused 14 BadHeader 0..76, opened 77, refused 14 BadHeader 78..255
in each value of 6 to 6 = refused 14 BadHeader 0..68, opened 69, refused 14 BadHeader 70..255
in each value of 7 to 7 = refused 14 BadHeader 0..76, opened 77, refused 14 BadHeader 78..255
-- The generation, from 1 to 2^62, and the count, up to 2^62.
in each value of 8 to 8 = refused 14 BadHeader 0, opened 1..255
in each value of 9 to 14 = opened 0..255
in each value of 15 to 15 = opened 0..63, refused 14 BadHeader 64..255
in each value of 16 to 22 = opened 0..255
in each value of 23 to 23 = opened 0..64, refused 14 BadHeader 65..255
-- Cells, elements, slots. Cells more are on the same page and aren't spelled; a page more makes the image longer.
in each value of 24 to 24 = refused 14 BadHeader 0, opened 1, refused 15 BadPage 2..128, refused 12 WrongLength 129..255
in each value of 25 to 25 = opened 0, refused 12 WrongLength 1..255
in each value of 26 to 26 = opened 0, refused 12 WrongLength 1..15, refused 14 BadHeader 16..255
in each value of 27 to 27 = opened 0, refused 14 BadHeader 1..255
in each value of 28 to 28 = refused 14 BadHeader 0, opened 1, refused 12 WrongLength 2..64, refused 14 BadHeader 65..255
in each value of 29 to 31 = opened 0, refused 14 BadHeader 1..255
in each value of 32 to 32 = refused 14 BadHeader 0..15, opened 16, refused 12 WrongLength 17..255
in each value of 33 to 33 = opened 0, refused 12 WrongLength 1..15, refused 14 BadHeader 16..255
in each value of 34 to 63 = opened 0, refused 14 BadHeader 1..255
