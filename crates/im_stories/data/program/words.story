# Words ask for their subcommand
-- With none the program shows what it does.
imem = demonstration
imem format a.img = make a.img of 4096 cells, 16 elements, 256 slots
imem format --slots=16 a.img --elements 65536 = make a.img of 4096 cells, 65536 elements, 16 slots
imem format a.img --cells 0 = make a.img of 0 cells, 16 elements, 256 slots
-- The greatest number, with zeros before it.
imem format a.img --cells 0004294967295 = make a.img of 4294967295 cells, 16 elements, 256 slots
imem format a.img --new = make a.img of 4096 cells, 16 elements, 256 slots, where none is
imem format --new --statuses a.img --cells 5 = make a.img of 5 cells, 16 elements, 256 slots, where none is, by statuses
imem format a.img --statuses = make a.img of 4096 cells, 16 elements, 256 slots, by statuses
imem serial a.img s = serve s on a.img
imem serial a.img s --statuses = serve s on a.img, by statuses
imem run a.img s --statuses --planned = run s on a.img, planned, by statuses
imem serve a.img --statuses = talk on a.img, unwatched, by statuses
imem serve a.img --statuses --watch = talk on a.img, watched, by statuses
imem inspect --statuses a.img = tell of a.img, by statuses
imem migrate a.img b.img --statuses = move a.img on to b.img, by statuses
imem serial a.img - = serve - on a.img
imem serial a.img s --once = serve s on a.img, once
imem serial --once a.img - = serve - on a.img, once
imem serial --quiet a.img s = serve s on a.img, quietly
imem serial a.img s --json --once = serve s on a.img, once, as JSON
imem serial a.img s --strict = serve s on a.img, strictly
imem run a.img s --json --planned = run s on a.img, planned, as JSON
imem run a.img s --quiet --trace t = run s on a.img, traced to t, quietly
imem run a.img s = run s on a.img
imem run a.img s --planned = run s on a.img, planned
imem run --planned a.img - = run - on a.img, planned
imem run a.img s --once = run s on a.img, once
imem run a.img s --planned --once = run s on a.img, planned, once
imem run --once a.img s --trace t --planned = run s on a.img, planned, once, traced to t
imem run --once a.img - --trace t = run - on a.img, once, traced to t
imem run --strict a.img s --once = run s on a.img, once, strictly
imem run a.img s --trace t = run s on a.img, traced to t
imem run --trace=t --planned a.img s --statuses = run s on a.img, planned, traced to t, by statuses
imem serve a.img = talk on a.img, unwatched
imem serve a.img --watch = talk on a.img, watched
imem serve --watch a.img = talk on a.img, watched
imem serve a.img --verbose = talk on a.img, unwatched, with a log
imem serve --verbose a.img --watch --statuses = talk on a.img, watched, with a log, by statuses
imem inspect a.img = tell of a.img
imem migrate a.img b.img = move a.img on to b.img
-- A size that isn't given is that of before.
imem copy a.img b.img = copy a.img to b.img
imem copy a.img b.img --cells 8192 --slots=0032 --statuses = copy a.img to b.img, 8192 cells, 32 slots, by statuses
imem copy --elements 65536 a.img b.img = copy a.img to b.img, 65536 elements
imem dump a.img = dump a.img
imem dump --statuses a.img = dump a.img, by statuses
imem dump --damaged a.img = dump a.img, damaged too
imem dump a.img --damaged --progress = dump a.img, damaged too, with progress
imem load a.dump b.img = load a.dump into b.img
imem load - b.img --slots 16 --cells 0 --elements 3 = load - into b.img, 0 cells, 3 elements, 16 slots
-- Each subcommand may wait, for whole seconds up to a day.
imem format --wait 1 a.img --cells 5 = make a.img of 5 cells, 16 elements, 256 slots, waiting 1 s
imem serial a.img s --wait=86400 --statuses = serve s on a.img, by statuses, waiting 86400 s
imem run --wait 007 a.img s --planned = run s on a.img, planned, waiting 7 s
imem serve a.img --wait 5 --watch = talk on a.img, watched, waiting 5 s
imem inspect a.img --wait 0 = tell of a.img
imem migrate a.img b.img --wait 60 = move a.img on to b.img, waiting 60 s
imem copy a.img b.img --wait 3 = copy a.img to b.img, waiting 3 s
imem dump a.img --wait=1 = dump a.img, waiting 1 s
imem load --wait 2 a.dump b.img = load a.dump into b.img, waiting 2 s

# Bad words are refused with status 2, and what is said names them
imem mend = status 2
says mend = yes
imem format = status 2
says IMAGE = yes
imem format a.img b.img = status 2
says b.img = yes
imem format a.img --rows 5 = status 2
says --rows = yes
imem serial a.img = status 2
says SCRIPT = yes
imem inspect = status 2
says IMAGE = yes
imem serve = status 2
says IMAGE = yes
imem serve a.img s = status 2
says 's' = yes
says Usage: imem serve [OPTIONS] <IMAGE> = yes
imem inspect = status 2
-- The usage is that of the subcommand.
says Usage: imem inspect <IMAGE> = yes
imem serial a.img s t = status 2
says 't' = yes
says Usage: imem serial [OPTIONS] <IMAGE> <SCRIPT> = yes
-- Only format makes a file where none is.
imem serial a.img s --new = status 2
says --new = yes
imem --statuses = status 2
imem serial a.img s --planned = status 2
says unexpected argument '--planned' found = yes
says tip: 'run --planned' exists = yes
says Usage: imem serial [OPTIONS] <IMAGE> <SCRIPT> = yes
imem serial a.img s --rows --planned = status 2
says --rows = yes
says tip: 'run --planned' exists = no
-- The version is asked for in one way.
imem version = status 2
says unrecognized subcommand 'version' = yes
says tip: 'imem --version' exists = yes
says Usage: imem [COMMAND] = yes
imem -v = status 2
says unexpected argument '-v' found = yes
says tip: 'imem --version' exists = yes
imem serial a.img -v = status 2
says tip: 'imem --version' exists = no
imem run a.img s --planned=yes = status 2
says --planned = yes
-- Lines are told in one way.
imem serial a.img s --quiet --json = status 2
says --quiet = yes
imem run a.img s --json --planned --quiet = status 2
says --json = yes
imem serve a.img --quiet = status 2
imem run a.img s --trace = status 2
says --trace = yes
imem serial a.img s --trace t = status 2
says --trace = yes
imem run a.img = status 2
says Usage: imem run <IMAGE> <SCRIPT> = yes
imem mend = status 2
says Usage: imem [COMMAND] = yes
imem migrate = status 2
says OLD = yes
imem migrate a.img = status 2
says NEW = yes
says Usage: imem migrate <OLD> <NEW> = yes
imem migrate a.img b.img c.img = status 2
says 'c.img' = yes
imem migrate a.img b.img --cells 5 = status 2
says --cells = yes
imem copy a.img = status 2
says NEW = yes
imem copy a.img b.img c.img = status 2
says 'c.img' = yes
imem copy a.img b.img --new = status 2
says --new = yes
imem dump = status 2
says IMAGE = yes
imem dump a.img b.img = status 2
imem dump a.img --cells 5 = status 2
imem dump a.img --json --damaged = status 2
says the argument '--json' cannot be used with '--damaged' = yes
says Usage: imem dump [OPTIONS] <IMAGE> = yes
imem inspect a.img --damaged = status 2
imem run a.img s --verbose = status 2
imem --progress = status 2
imem load a.dump = status 2
says NEW = yes
imem load a.dump b.img --count 5 = status 2

# A time to wait is a number of whole seconds in decimal digits, at most a day
imem serve a.img --wait 86401 = status 2
says invalid value "86401" for '--wait <SECONDS>': a decimal number, 0 to 86400 seconds, is expected = yes
says Usage: imem serve [OPTIONS] <IMAGE> = yes
imem serial a.img s --wait 1.5 = status 2
says "1.5" for '--wait <SECONDS>' = yes
says Usage: imem serial [OPTIONS] <IMAGE> <SCRIPT> = yes
imem inspect a.img --wait 18446744073709551616 = status 2
says Usage: imem inspect [OPTIONS] <IMAGE> = yes
imem format a.img --wait 5s = status 2
says Usage: imem format [OPTIONS] <IMAGE> = yes
imem run a.img s --wait -1 = status 2
imem run a.img s --wait=-1 = status 2
says Usage: imem run [OPTIONS] <IMAGE> <SCRIPT> = yes
imem serve a.img --wait +5 = status 2
says "+5" for '--wait <SECONDS>': a decimal number, 0 to 86400 seconds, is expected = yes
imem dump a.img --wait 1e3 = status 2
says "1e3" for '--wait <SECONDS>' = yes
says Usage: imem dump [OPTIONS] <IMAGE> = yes
imem stat a.img --wait 0x5 = status 2
says Usage: imem stat [OPTIONS] <IMAGE> = yes
imem migrate a.img b.img --wait "" = status 2
says Usage: imem migrate [OPTIONS] <OLD> <NEW> = yes
-- The time to wait is named first.
imem copy a.img b.img --cells y --wait x = status 2
says "x" for '--wait <SECONDS>' = yes
says Usage: imem copy [OPTIONS] <OLD> <NEW> = yes
imem load a.dump b.img --wait 1_0 = status 2
says Usage: imem load [OPTIONS] <TEXT> <NEW> = yes
imem migrate a.img b.img --wait = status 2
imem inspect a.img --wait 1 --wait 2 = status 2
imem --wait 5 = status 2

# An option takes decimal digits alone, of a number below 2^32
imem format a.img --cells 4294967296 = status 2
says "4294967296" for '--cells <N>': a decimal number, 1 to 1048576, is expected = yes
says Usage: imem format [OPTIONS] <IMAGE> = yes
-- The first option at fault is named, with its word.
imem format a.img --slots 1e3 --cells 64 --elements two = status 2
says "two" for '--elements <N>': a decimal number, 1 to 64, is expected = yes
imem format a.img --cells +5 = status 2
says 1 to 1048576 = yes
imem format a.img --cells 1e6 = status 2
says "1e6" for '--cells <N>': a decimal number, 1 to 1048576, is expected = yes
imem format a.img --cells 0x5 = status 2
says 1 to 1048576 = yes
imem format a.img --cells 1_0 = status 2
says 1 to 1048576 = yes
-- Five and a space, and an empty word.
imem format a.img --cells 5~ = status 2
says 1 to 1048576 = yes
imem format a.img --cells "" = status 2
says 1 to 1048576 = yes

# The usage is that of the subcommand whose size is no number
imem copy a.img b.img --cells 4294967296 = status 2
says "4294967296" for '--cells <N>' = yes
says Usage: imem copy [OPTIONS] <OLD> <NEW> = yes
imem load a.dump b.img --elements 1 --slots +16 = status 2
says "+16" for '--slots <N>': a decimal number, 16 to 4096, is expected = yes
says Usage: imem load [OPTIONS] <TEXT> <NEW> = yes

# Help says what each subcommand does, with an example
imem --help = status 0
says imem run a.img fetch.script = yes
imem format --help = status 0
says imem format --new small.img --cells 64 = yes
says 1 to 1,048,576 = yes
imem serial --help = status 0
says Serve the requests of a script = yes
imem run --help = status 0
says imem run a.img fetch.script = yes
says refused 19 Stalled = yes
imem serve --help = status 0
says imem serve a.img < ask.txt = yes
says E.N reset A = yes
says Exit status: 0 the input ended = yes
imem inspect --help = status 0
says imem inspect a.img = yes
says Exit status: 0 the whole report is printed = yes
imem serial --help = status 0
says standard input = yes
says store PLACE VALUE = yes
says reset PLACE = yes
says Exit status: 0 all was served = yes
imem format --help = status 0
says Exit status: 0 the image is made = yes
says an existing file is refused = yes
imem --help = status 0
says With --statuses = yes
imem migrate --help = status 0
says imem migrate old.img new.img = yes
says 14 BadHeader = yes
says Exit status: 0 the image is moved; = yes
imem copy --help = status 0
says imem copy a.img larger.img --cells 65536 = yes
says 17 BadLimits = yes
imem dump --help = status 0
says imem dump a.img > a.dump = yes
says entry E.N OPERATION -> ANSWER = yes
imem load --help = status 0
says imem load a.dump b.img = yes
says 18 BadScript = yes
-- The short word asks for the same.
imem -h = status 0
says Usage: imem [COMMAND] = yes
imem serial -h = status 0
says Usage: imem serial [OPTIONS] <IMAGE> <SCRIPT> = yes
imem stat -h = status 0
says Usage: imem stat [OPTIONS] <IMAGE> = yes

# The version is told with the layout that is written
imem --version = status 0
says imem 0.1.0, image layout 2 = yes
-- Of which commit it is, and that it was proved, is written into the program that was.
says commit ------------, not proved = yes
imem -V = status 0
imem inspect --version = status 2

# Words ask for numbers of an image, or for some lines of its report
imem stat a.img = count in a.img
imem stat a.img --json = count in a.img, as JSON
imem stat --statuses a.img --wait 2 = count in a.img, by statuses, waiting 2 s
imem stat = status 2
imem stat a.img --cells 0-9 = status 2
imem inspect a.img --cells 0-99 = tell of a.img, cells 0 to 99
imem inspect a.img --cells 7-7 --waiting = tell of a.img, cells 7 to 7, who waits
imem inspect a.img --element 3 = tell of a.img, 3 is the element
imem inspect a.img --waiting --element 3 = tell of a.img, 3 is the element, who waits
imem inspect a.img --json = tell of a.img, as JSON
imem inspect a.img --waiting --json --cells 0-1 = tell of a.img, cells 0 to 1, who waits, as JSON
imem dump a.img --json = dump a.img, as JSON
imem inspect a.img --cells 9 = status 2
says invalid value "9" for '--cells <FROM-TO>': two addresses, 0 to 1048575, are expected, as 0-99 = yes
says Usage: imem inspect = yes
imem inspect a.img --cells 9-8 = status 2
imem inspect a.img --cells 1-2-3 = status 2
imem inspect a.img --cells 0-4294967296 = status 2
imem inspect a.img --cells 0- = status 2
imem inspect a.img --element x = status 2
says invalid value "x" for '--element <N>': a decimal number, 0 to 63, is expected = yes
imem stat --help = status 0
says jq .journal.room = yes
