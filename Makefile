# make           proves the programs and builds them: out/kqsim, out/kqstep, out/kqcheck and out/kqsplit in their
#                crates; and the library for C, crates/libkqsim/out/libkqsim.a
# make run       the report of an example, within two minutes on a fresh machine
# make try       the programs without their proofs, in out/try: they are slow, and check themselves as they run
# make test      proves and tests everything; the last line is 'N passed, M failed'
# make bench     measures the program beside one that only reads
# make install   puts the programs, kqview and kqshrink into PREFIX/bin, their manual pages into PREFIX/share/man,
#                libkqsim.a into PREFIX/lib, kqsim.pc into PREFIX/lib/pkgconfig and kqsim.h into PREFIX/include
#
# Needed: the kit's `rt`, bash, make, cc and python3.

KQSIM := crates/kqsim/out/kqsim
KQSTEP := crates/kqstep/out/kqstep
KQCHECK := crates/kqcheck/out/kqcheck
KQSPLIT := crates/kqsplit/out/kqsplit
LIBKQSIM := crates/libkqsim/out/libkqsim.a
VALUE_COUNT := crates/value_count/out/value_count
TRACE_CHECK := crates/trace_check/out/trace_check
REPLAY_BENCH := crates/replay_bench/out/replay_bench
EXAMPLE ?= examples/doorbell.trace
PREFIX ?= /usr/local
# How many crates are begun side by side: twice as many as there are processors, since some wait for others. One that is
# proved takes up to 3 GB.
JOBS ?= $(shell echo $$((2 * $$(nproc))))

.PHONY: all libkqsim libkqsim-joined run try test bench install install-view install-man install-pc

# (rt all check proves what has changed of the libraries, side by side where they do not stand on each other; rt run
# proves and builds a program over that, by as many jobs as there is room for, and runs it, so it is given its stored
# run)
all:
	cd crates/kq_command && rt all check --jobs $(JOBS)
	cd crates/kqsim && rt run < stdin
	cd crates/kqstep && rt run < stdin
	cd crates/kqcheck && rt run -- --explain 4 - < stdin
	cd crates/kqsplit && rt run -- - < stdin
	$(MAKE) libkqsim

libkqsim:
	cd crates/libkqsim && rt all check --jobs $(JOBS) && rt lib
	$(MAKE) libkqsim-joined

# (one archive, with the few functions of C that call malloc and free)
libkqsim-joined:
	rm -rf $(LIBKQSIM) crates/libkqsim/out/joined
	mkdir crates/libkqsim/out/joined
	cd crates/libkqsim/out/joined && ar x ../liblibkqsim.a && ar x "$$(dirname "$$(rt doc)")/c/liblibc_c.a"
	ar rcs $(LIBKQSIM) crates/libkqsim/out/joined/*.o

# (rt try runs the program without any proof, and copies no file from outside its crate)
run:
	@if [ -x $(KQSIM) ]; then $(KQSIM) replay $(EXAMPLE); else cd crates/kqsim && rt try -- replay - < ../../$(EXAMPLE); fi

# (a proof takes most of an hour, so this is for a first look)
try:
	$(MAKE) --no-print-directory -j 4 out/try/kqsim out/try/kqstep out/try/kqcheck out/try/kqsplit

out/try/%: FORCE
	tools/unproved $* $@

FORCE:

test:
	@tests/all

bench: all
	cd crates/value_count && rt run < stdin
	cd crates/trace_check && rt run -- fallbacks < stdin
	cd crates/replay_bench && rt run -- parts 2 < stdin
	bench/run $(KQSIM) $(VALUE_COUNT) $(TRACE_CHECK)
	bench/kevents $(KQSIM)
	bench/objects $(KQSIM)
	bench/timers $(KQSIM)
	bench/live $(KQSIM)
	bench/workers $(KQSIM) $(REPLAY_BENCH)

install: all install-view install-man install-pc
	install -D -m 755 $(KQSIM) $(DESTDIR)$(PREFIX)/bin/kqsim
	install -D -m 755 $(KQSTEP) $(DESTDIR)$(PREFIX)/bin/kqstep
	install -D -m 755 $(KQCHECK) $(DESTDIR)$(PREFIX)/bin/kqcheck
	install -D -m 755 $(KQSPLIT) $(DESTDIR)$(PREFIX)/bin/kqsplit
	install -D -m 644 $(LIBKQSIM) $(DESTDIR)$(PREFIX)/lib/libkqsim.a
	install -D -m 644 include/kqsim.h $(DESTDIR)$(PREFIX)/include/kqsim.h

# (these are Python: the package in an archive each, which is one file that runs)
install-view:
	install -d $(DESTDIR)$(PREFIX)/bin
	room=$$(mktemp -d) && cp -R clients/python/kqsim "$$room" && find "$$room" -name __pycache__ -exec rm -r {} + && \
	  for name in view shrink; do \
	    python3 -m zipapp "$$room" -m kqsim.$$name.command:run -p "/usr/bin/env python3" \
	      -o $(DESTDIR)$(PREFIX)/bin/kq$$name && chmod 755 $(DESTDIR)$(PREFIX)/bin/kq$$name || exit 1; \
	  done && rm -rf "$$room"

install-man:
	install -D -m 644 man/kqsim.1 $(DESTDIR)$(PREFIX)/share/man/man1/kqsim.1
	install -D -m 644 man/kqstep.1 $(DESTDIR)$(PREFIX)/share/man/man1/kqstep.1
	install -D -m 644 man/kqcheck.1 $(DESTDIR)$(PREFIX)/share/man/man1/kqcheck.1
	install -D -m 644 man/kqsplit.1 $(DESTDIR)$(PREFIX)/share/man/man1/kqsplit.1
	install -D -m 644 man/kqview.1 $(DESTDIR)$(PREFIX)/share/man/man1/kqview.1
	install -D -m 644 man/kqshrink.1 $(DESTDIR)$(PREFIX)/share/man/man1/kqshrink.1
	install -D -m 644 man/kqsim.5 $(DESTDIR)$(PREFIX)/share/man/man5/kqsim.5

install-pc:
	install -d $(DESTDIR)$(PREFIX)/lib/pkgconfig
	sed -e 's|@PREFIX@|$(PREFIX)|' -e "s|@VERSION@|$$(cat VERSION)|" kqsim.pc.in > $(DESTDIR)$(PREFIX)/lib/pkgconfig/kqsim.pc
