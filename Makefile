# make          the proved, optimised program in build/sgmlesis
# make demo     the lines of examples/memo/memo.sgm
# make test     the gate: every proof, refused edit, test and stored run
# make install PREFIX=..

PREFIX ?= /usr/local
PROGRAM = build/sgmlesis
SOURCES = $(shell find crates crates.txt HANDLES -path '*/out' -prune -o -type f -print)

all: $(PROGRAM)

$(PROGRAM): $(SOURCES)
	mkdir -p build
	cd crates/sgmlesis && rt run -- ../../examples/memo/memo.sgm > /dev/null
	cp crates/sgmlesis/out/sgmlesis $@

demo: $(PROGRAM)
	$(PROGRAM) examples/memo/memo.sgm

test:
	rt ci

install: $(PROGRAM)
	install -D $(PROGRAM) $(DESTDIR)$(PREFIX)/bin/sgmlesis
	install -D -m 644 man/sgmlesis.1 $(DESTDIR)$(PREFIX)/share/man/man1/sgmlesis.1

clean:
	rm -rf build

.PHONY: all demo test install clean
