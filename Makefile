# make run      compiles the program without proving it, and runs PROGRAM on CAPTURE, a file or gen:COUNT:SEED, in a MODE
#               with OPTIONS: about a minute
# make build    proves and builds the program, crates/mp5/out/mp5
# make install  puts the program and its manual page below PREFIX, and builds the program first where it isn't there
# make test     is the gate: every proof, edit, test and program

MODE = one
PROGRAM = examples/count.domino
CAPTURE = examples/count.pcap
OPTIONS =
PREFIX = /usr/local

.PHONY: run build install test

# A capture that is made is no file.
MADE = $(filter gen:%,$(CAPTURE))

run:
	@cd crates/mp5 && rt try \
	  --data transaction.domino="$(abspath $(PROGRAM))" $(if $(MADE),,--data packets.pcap="$(abspath $(CAPTURE))") \
	  -- $(MODE) transaction.domino $(if $(MADE),"$(CAPTURE)",packets.pcap) $(OPTIONS)

build: crates/mp5/out/mp5

crates/mp5/out/mp5: crates.txt $(wildcard crates/*/src/*.rt crates/*/specs/*.antt)
	cd crates/mp5 && rt run -- one ../../examples/count.domino ../../examples/count.pcap

install: crates/mp5/out/mp5
	install -D -m 755 crates/mp5/out/mp5 "$(DESTDIR)$(PREFIX)/bin/mp5"
	install -D -m 644 docs/mp5.1 "$(DESTDIR)$(PREFIX)/share/man/man1/mp5.1"

test:
	rt ci
