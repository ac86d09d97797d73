# make hi: builds the program without its proofs, and runs it on examples/hi.bin. make build: proves and builds it.
# make test: the merge gate.
# make wrong: all wrong bodies, or those of one crate, as in make wrong CRATE=rvm_hart, over the libraries that `rt ci` made
# in this checkout, or in the one that OVER names.
# make times: the merge gate, and the processor seconds of each crate.
# make faults: the tests, with growths of memory refused in turn, at most 60 of a test; with MOST=0 each one.
# make docs-check: the commands of README and docs are run, also with standard streams closed, links and the table of
# crates looked at.
# make stress: random scripts for worlds of hosts, against a board that never moves.
# make hosts: guests are moved between processes, over connections that break.
# make journals: the example journals are audited with each byte changed, and cut at each byte.
# make install: installs what make build made, with manual pages (wants help2man), completions, documents and examples;
# DESTDIR and PREFIX say where.
# make live IMAGES=..: guests are moved while they run, 200 times, and their output compared with that of run.
PREFIX ?= /usr/local

.PHONY: build hi test wrong times faults docs-check stress hosts journals live bench bench-programs bench-journals count install uninstall clean

# The program lies in build/rvmove afterwards.
build:
	cd crates/rvm_program && rt lib
	tools/with-commit sh -c 'cd crates/rvmove && rt run -- --help > /dev/null'
	mkdir -p build
	cp crates/rvmove/out/rvmove build/rvmove

hi:
	tools/with-commit sh -c 'cd crates/rvmove && rt try --data hi.bin=../../examples/hi.bin -- run hi.bin --raw'
	@echo 'This build is not proved. make build proves the program, and puts it into build/.' >&2

test:
	rt ci

wrong:
	tools/try-wrong $(if $(OVER),--over $(OVER)) $(CRATE)

times:
	tools/gate-times

faults:
	tools/try-faults $(if $(MOST),--most $(MOST)) $(CRATE)

docs-check: build
	tools/check-docs
	tools/try-closed
	tools/check-layers

stress: build
	cd bench && python3 stress.py

hosts: build
	tools/try-hosts $(TRIAL)

journals: build
	tools/try-journals

live: build
	python3 bench/live.py $(IMAGES)

bench: bench-programs bench-journals
	python3 bench/bench.py
	python3 bench/large.py

# Host instructions a guest step; wants valgrind.
count: bench-programs
	python3 bench/count.py

bench-programs: build
	cd crates/rvm_bench && rt run -- ../../examples/hi.bin 1 flat 1000 > /dev/null
	cp crates/rvm_bench/out/rvm_bench build/rvm_bench

# Long journals, put in order: its proof takes minutes.
bench-journals: build
	cd crates/rvm_test_journals && rt run > /dev/null
	cp crates/rvm_test_journals/out/rvm_test_journals build/rvm_test_journals

# Installs what make build made, with what a package has beside it. DESTDIR stands before each place.
SHARE = $(DESTDIR)$(PREFIX)/share

install:
	install -D build/rvmove $(DESTDIR)$(PREFIX)/bin/rvmove
	tools/completions build/rvmove build/completions
	install -D -m 644 build/completions/rvmove.bash $(SHARE)/bash-completion/completions/rvmove
	install -D -m 644 build/completions/_rvmove $(SHARE)/zsh/site-functions/_rvmove
	install -D -m 644 build/completions/rvmove.fish $(SHARE)/fish/vendor_completions.d/rvmove.fish
	tools/man-pages build/rvmove build/man
	install -D -m 644 -t $(SHARE)/man/man1 build/man/*.1
	install -D -m 644 -t $(SHARE)/doc/rvmove README.md
	cp -r docs examples $(SHARE)/doc/rvmove/

uninstall:
	rm -f $(DESTDIR)$(PREFIX)/bin/rvmove $(SHARE)/bash-completion/completions/rvmove
	rm -f $(SHARE)/zsh/site-functions/_rvmove $(SHARE)/fish/vendor_completions.d/rvmove.fish
	rm -f $(SHARE)/man/man1/rvmove.1 $(SHARE)/man/man1/rvmove-*.1
	rm -rf $(SHARE)/doc/rvmove

clean:
	rm -rf build
