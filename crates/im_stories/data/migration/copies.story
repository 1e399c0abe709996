# An image is copied by the program in other sizes, and served
run imem format a.img --cells 64 --elements 4 --slots 16 = 0
save b.script setup / alloc x i 2 / alloc y m 1 / element 1 / fetch x / take y / element 2 / take y / store x+1 7 / = saved
run imem serial a.img b.script = 0
old load a.img = 58368 bytes
mark = marked
run imem copy a.img b.img = 0
printed 0 = copied 6
new load b.img = 58368 bytes
new means old = yes
old load a.img = 58368 bytes
old as marked = yes
-- An image isn't written over.
run imem copy a.img b.img = 1
printed 0 = refused 22 NotBlank
run imem copy a.img c.img --cells 1000 --elements 64 --slots 32 = 0
printed 0 = copied 6
run imem inspect c.img = 0
printed 0 = version 2
printed 1 = limits 1000 64 32
printed 2 = header 0 generation 1 area 0 count 6
printed 3 = journal 0 room 32
printed 4 = block 0 i 2
printed 5 = block 2 m 1
printed 6 = cell 0 waiting 1.1
printed 7 = cell 1 full 7
printed 8 = cell 2 waiting 1.2 2.1
new load c.img = 731136 bytes
new means old = yes
-- The copy's elements 4 to 63 are new ones, and the first who waits is answered first.
save c.script element 63 / put 2 9 / store 0 5 / = saved
run imem serial c.img c.script = 0
printed 0 = 63.1 stored
printed 1 = 63.2 stored
run imem inspect c.img = 0
printed 8 = cell 2 waiting 2.1
-- And back, as far as what is in use allows.
run imem copy c.img d.img --cells 3 --elements 64 --slots 16 = 0
printed 0 = copied 8
run imem copy c.img e.img --cells 2 = 1
printed 0 = refused 17 BadLimits
run imem copy c.img e.img --elements 63 = 1
printed 0 = refused 17 BadLimits
run imem copy a.img e.img --cells 3 --elements 3 = 0
printed 0 = copied 6
old load a.img = 58368 bytes
new load e.img = 50176 bytes
new means old = yes

# A copy that is refused makes no file
run imem format f.img --cells 1 --elements 1 --slots 16 = 0
old load f.img = 33792 bytes
mark = marked
run imem copy f.img g.img --cells 0 = 1
printed 0 = refused 17 BadLimits
run imem copy f.img g.img --elements 65 = 1
printed 0 = refused 17 BadLimits
run imem copy f.img g.img --slots 4097 = 1
printed 0 = refused 17 BadLimits
run imem copy f.img no_such_folder/g.img = 1
printed 0 = refused 8 Device
run imem copy f.img f.img = 1
printed 0 = refused 8 Device
run imem copy no_such.img g.img = 1
printed 0 = refused 8 Device
told 0 = there is no such file
save h.script element 0 / = saved
run imem copy h.script g.img = 1
printed 0 = refused 12 WrongLength
file g.img = none
new load f.img = 33792 bytes
new means old = yes
-- A file of another length is left as it is.
run imem copy f.img h.script = 1
printed 0 = refused 12 WrongLength
told 0 = the file has not the length that the image needs: where there is none, it is made
-- An image of the first version isn't copied.
old image 1 1 16 = 33792 bytes
old keep old.img = 33792 bytes
run imem copy old.img g.img = 1
printed 0 = refused 21 OldVersion
file g.img = none
