# make            prove the library and build it, and the command: target/staticlib/libbohrali.a, target/lib/libbohrali.so, target/bin/bohrali
# make proved     prove and build the archive and the programs: target/staticlib/libbohrali.a, target/bin/print_chart and the others
# make demo       the same, then show both: charts of the paper from C, and the command on examples/playtest
# make test       the gate: all proofs, must-fail edits and tests
# make frontend   the gcc plugin that writes control flow, the recorder, and the wrappers bohrali-gcc, bohrali-g++, bohrali-gfortran: target/frontend
# make evidence   real programs recorded on libgomp and LLVM's runtime and replayed (tests/evidence.sh); fetches their sources, takes more than an hour
# make mutants    the other wrong programs that the prover must refuse (tests/mutants); takes the better part of an hour
# make bench      the library's times by those of hand-written Rust
# make bench-against BEFORE=path/to/libbohrali.a    by those of another build of it
# make install    command and man page, header, archive, shared library and bohrali.pc, and the front end if it is built, below PREFIX
PREFIX ?= /usr/local
VERSION := 2.0.0
SONAME := libbohrali.so.$(firstword $(subst ., ,$(VERSION)))
ARCHIVE := target/staticlib/libbohrali.a
PROGRAMS := $(patsubst crates/%/src/main.rt,target/bin/%,$(wildcard crates/*/src/main.rt))
REPLAY := target/bin/replay_trace
SHARED := target/lib/libbohrali.so.$(VERSION)
COMMAND := target/bin/bohrali
SOURCES := crates.txt $(wildcard crates/*/src/*.rt crates/*/specs/*.antt)
RUST := rust/Cargo.toml rust/Cargo.lock $(wildcard page/* rust/bohrali/src/*.rs rust/bohrali/build.rs $(foreach x,region witness frontend tool,rust/$(x)/Cargo.toml rust/$(x)/src/*.rs rust/$(x)/src/*/*.rs))
CFLAGS ?= -O2 -Wall -Wextra -Werror

.PHONY: all proved demo test frontend evidence mutants bench bench-against install clean

all: $(ARCHIVE) $(SHARED) $(COMMAND)

proved: $(ARCHIVE) $(PROGRAMS)

$(ARCHIVE): $(SOURCES)
	cd crates/bohrali_c && rt lib
	install -D -m 644 crates/bohrali_c/out/libbohrali_c.a $@

# A program is built by a run of it.
$(PROGRAMS): target/bin/%: $(SOURCES)
	cd crates/$* && rt run </dev/null >/dev/null
	install -D crates/$*/out/$* $@

# The command stands beside the proved program that replays traces.
$(COMMAND): $(ARCHIVE) $(REPLAY) $(RUST)
	cd rust && cargo build --offline --locked --quiet --release -p tool
	install -D rust/target/release/bohrali $@

# The archive as one shared object. Code that is not position-independent fails the link (text), and so does a name that nothing defines (defs).
$(SHARED): $(ARCHIVE) bohrali.map
	install -d $(@D)
	$(CC) -shared -Wl,-soname,$(SONAME),--version-script=bohrali.map,-z,text,-z,defs -Wl,--whole-archive $< -Wl,--no-whole-archive -o $@
	ln -sf $(@F) target/lib/$(SONAME)
	ln -sf $(SONAME) target/lib/libbohrali.so

target/%: examples/%.c include/bohrali.h $(ARCHIVE)
	$(CC) -std=c11 $(CFLAGS) -Iinclude $< $(ARCHIVE) -o $@

demo: all target/judge
	@echo "Figure 2(b) of the paper on static nonconcurrency. A row for each node that is no barrier: 0 where two threads can be"
	@echo "there and at that other node together, in a run that finishes, else the rule by which they never are."
	target/judge charts/figure-2b.chart 4 5 7 8
	@echo "One claim more, which is false:"
	target/judge charts/figure-2b.chart 4 5 7 8 4 8 || test $$? -eq 1
	@echo "A small simulator, built without the locks that can go:"
	$(MAKE) --no-print-directory -C examples/playtest BOHRALI=$(abspath $(COMMAND)) demo
	@echo "The same as a page; open it in a browser:"
	$(COMMAND) page examples/playtest/playtest.csv --source examples/playtest -o target/playtest.html

test:
	.ci/run

frontend:
	$(MAKE) -C frontend/gcc

evidence: all frontend
	tests/evidence.sh

mutants:
	tests/mutants.sh

bench: $(ARCHIVE) $(REPLAY)
	cd rust && cargo run --offline --locked --quiet --release -p bench

bench-against: $(ARCHIVE)
	@test -f "$(BEFORE)" || { echo "BEFORE names the archive to measure against"; exit 1; }
	cd rust && BOHRALI_BEFORE=$(abspath $(BEFORE)) cargo run --offline --locked --quiet --release -p bench --features before --bin against

install: $(ARCHIVE) $(SHARED) $(COMMAND) $(REPLAY)
	install -d $(DESTDIR)$(PREFIX)/include $(DESTDIR)$(PREFIX)/lib/pkgconfig
	install -m 644 include/bohrali.h $(DESTDIR)$(PREFIX)/include
	install -m 644 $(ARCHIVE) $(DESTDIR)$(PREFIX)/lib
	install -m 755 $(SHARED) $(DESTDIR)$(PREFIX)/lib
	cp -P target/lib/$(SONAME) target/lib/libbohrali.so $(DESTDIR)$(PREFIX)/lib
	sed -e 's|@PREFIX@|$(PREFIX)|' -e 's|2.0.0|$(VERSION)|' bohrali.pc.in > $(DESTDIR)$(PREFIX)/lib/pkgconfig/bohrali.pc
	if [ -d target/frontend ]; then \
	    install -d $(DESTDIR)$(PREFIX)/bin $(DESTDIR)$(PREFIX)/lib/bohrali && \
	    install -m 755 target/frontend/bohrali-* $(DESTDIR)$(PREFIX)/bin && \
	    install -m 644 target/frontend/flow-*.so target/frontend/libbohrali-record.a $(DESTDIR)$(PREFIX)/lib/bohrali; fi
	install -D $(COMMAND) $(DESTDIR)$(PREFIX)/bin/bohrali
	install -D $(REPLAY) $(DESTDIR)$(PREFIX)/libexec/bohrali/replay_trace
	install -D -m 644 docs/bohrali.1 $(DESTDIR)$(PREFIX)/share/man/man1/bohrali.1

clean:
	rm -rf target rust/target examples/playtest/build crates/*/out
