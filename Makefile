.PHONY: check test imem examples demo clients library install uninstall package debian server c-examples model trials try \
        try-library try-tests

PREFIX = /usr/local
LIBDIR = lib

# What the gate can't see, in seconds: documents against the sources, links, layout, what stands twice.
check:
	scripts/check

# The gate: every proof from nothing, the wrong bodies that the prover must refuse, and the tests. Each proof has one
# processor: with two it takes a third more of them.
test:
	@command -v rt > /dev/null || { echo "this needs the toolchain's command \`rt\`, which isn't on the PATH (README.md, The toolchain)"; exit 1; }
	RT_JOBS=$${RT_JOBS:-$$(nproc)} rt ci

# The proved program, as out/imem. What `make test` has proved on this machine isn't proved again, here and below.
imem:
	scripts/build-imem

# The main job on a real file: scripts, the program ended between them, what it prints compared with examples/.
examples demo: imem
	scripts/examples

# The same at first sight, with no proof, by a program that it leaves as out/imem-unproved.
try:
	scripts/examples --unproved

# The library for C, Python and Rust with no proof, in out/unproved.
try-library:
	scripts/library --unproved

# Clients in Python and C over the program, which is killed at random moments: their counts come out exact.
clients: imem
	scripts/clients

# The proved library for C, as out/libluntrebis.a and out/libluntrebis.so.1.
library:
	scripts/library

# Program, library, headers, manual, completions: what out/ has is put in place, or taken away. It proves and builds nothing.
install:
	scripts/install --destdir "$(DESTDIR)" --prefix "$(PREFIX)" --libdir "$(LIBDIR)"

uninstall:
	scripts/install --uninstall --destdir "$(DESTDIR)" --prefix "$(PREFIX)"

# The archive of a release with its certificate, and the packages of Debian: in out/release and out/debian.
package: imem library
	scripts/package

debian: imem library
	scripts/debian

# The server for any number of clients, with Erlang, in out/server: docs/SERVER.md. It needs no proof, and `imem` to run.
server:
	scripts/server-release

# Programs in C, Rust and Python that use it or its packages, what they print compared with what lies beside them.
c-examples: library
	scripts/c-examples

# What needs a program built, one after another: none of it is in the gate. A trial whose tool isn't there is skipped.
trials: imem
	scripts/trials

# Every story, with no proof.
try-tests:
	scripts/try-stories

# The model of the lock, the queue and the bells, searched in all schedules of two ports; needs Debian's spin.
model:
	scripts/model
