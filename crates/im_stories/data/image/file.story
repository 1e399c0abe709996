-- A file of the folder that the program runs in, as a disk. Bytes are two hex digits each.
-- Its words are:
-- folder NAME, remove NAME       an empty folder, also if there was one; removes it with all that is in it
-- put PATH TEXT..                a file with this text, by other hands
-- create PATH N                  makes a file of N zero bytes, and opens it
-- create new PATH N              the same, if nothing has that name
-- open PATH, open PATH to read   opens a file
-- file read AT N, file write AT BYTE.., file sync, file length, file close
-- file failure                   what is said to have failed first
-- file gone PATH                 takes the file's name away, and closes it

# A file is made over an older one, written, and opened again
folder image_story = so
put image_story/image an older file = so
create image_story/image 4 = open
file read 0 4 = 00 00 00 00
file write 1 01 02 = ok
file sync = ok
file close = closed
open image_story/image = open
file length = 4
file read 0 4 = 00 01 02 00
-- It is cut behind its back.
put image_story/image ab = so
file read 0 4 = fault
file read 0 2 = 61 62
-- Its length isn't what it was: from here on nothing more is asked of it.
file length = fault
file length = fault
file read 0 2 = fault
file write 0 07 = fault
file sync = fault
file close = closed
open image_story/image = open
file read 0 2 = 61 62
remove image_story = so

# A file that was opened to be read isn't written
folder image_story = so
put image_story/image abcd = so
open image_story/image to read = open
file length = 4
file write 1 07 = fault
file read 0 4 = 61 62 63 64
remove image_story = so

# A path that can't be made is refused
create no_folder/image 4 = refused 8 Device
open no_folder/image = refused 8 Device
open no_folder/image to read = refused 8 Device

# A file that is open is in use, and is left as it is
folder image_story = so
create image_story/image 4 = open
file write 0 61 62 63 64 = ok
open image_story/image = in use
open image_story/image to read = in use
create image_story/image 8 = in use
file read 0 4 = 61 62 63 64
file length = 4
file close = closed
-- Others may read what one only reads.
open image_story/image to read = open
open image_story/image to read = open
open image_story/image = in use
create image_story/image 8 = in use
file close = closed
open image_story/image = open
file read 0 4 = 61 62 63 64
file close = closed
remove image_story = so

# Only a regular file is opened
folder image_story = so
open image_story = no regular file
open image_story to read = no regular file
create image_story 4 = no regular file
open /dev/null = no regular file
open /dev/null to read = no regular file
create /dev/null 4 = no regular file
open /dev/full = no regular file
create /dev/full 4 = no regular file
remove image_story = so

# A new file is made only where nothing has that name
folder image_story = so
create new image_story/image 4 = open
file read 0 4 = 00 00 00 00
create new image_story/image 8 = exists
file length = 4
file close = closed
put image_story/other abcd = so
create new image_story/other 4 = exists
create new image_story 4 = exists
create new /dev/null 4 = exists
create new no_folder/image 4 = refused 8 Device
open image_story/other = open
file read 0 4 = 61 62 63 64
-- The name of another file isn't taken away.
file gone image_story/image = exists
open image_story/other = open
file gone image_story/other = gone
open image_story/other = refused 8 Device
create new image_story/other 2 = open
file close = closed
remove image_story = so

# What failed first is told
folder image_story = so
create image_story/image 4 = open
file failure = none
put image_story/image ab = so
file read 0 4 = fault
file failure = read
file length = fault
file failure = read
file close = closed
open image_story/image = open
file failure = none
put image_story/image abc = so
file length = fault
file failure = length
file write 0 07 = fault
file failure = length
file close = closed
open image_story/image to read = open
file write 0 07 = fault
file failure = write
remove image_story = so
