# make, make lib    prove the planner and build its static library
# make parts        that, the tests' library and the programs at the desk
# make plan ..      one program at the desk, or those that are named
# make example      build the C example and hold what it prints on File Seven to its file 'expected'
# make release      the library, its header, how to link them, the format and the example, in one archive
# make test-c       unpack the release, call it from C, build its example as LINKING.txt says, and hold the stack of each call to what preempt.h says
# make test-format  hold docs/FORMAT.txt to the bytes that the C calls take and leave
# make test-proof   hold docs/PROOF.md to the tree, and to what rt ci printed into the file SAID, if it is given
# make test-desk    hold what the programs at the desk print to documents 01 and 02
# make test-front   run the script preempt under each shell at hand, and install, use and uninstall it in a directory of its own
# make test-picture read the pictures of many files and hold them to what plan prints of each; SEED and COUNT may be given
# make test-texts   hold the programs that read and write the text of a task to a reader and a writer of their own; SEED and COUNT may be given
# make test-readme  run the examples of README.md and hold what they print to what it says
# make opponent     compare the C calls with the independent implementation in tests/; SEED, COUNT and CASE may be given
# make opponent-bugs  see that this comparison notices each wrong program that tests/ has
# make install      the programs, the script preempt, the library, its header and the pages below PREFIX, /usr/local if it is not given; DESTDIR in front
# make uninstall    remove what make install puts there
# make bench        time the calls against plain Rust
# make compare      OLD=DIR, a directory with an older libfirmware.a: see that its calls and today's answer alike, and time both in turns; SEED and
#                   COUNT may be given, and WITH=probe if DIR has libprobe.a too and its calls have the arguments of today
# make clean        remove all that was built

CC := gcc
CXX := g++
STRICT := -O2 -Wall -Wextra -Werror -pedantic -Wconversion
CFLAGS := -std=c11 $(STRICT)
VERSION := $(shell cat VERSION)
SOURCES := crates.txt $(shell find crates/*/src crates/*/specs crates/*/proofs -type f)
LIB := target/staticlib/libfirmware.a
PROBE := target/staticlib/libprobe.a
# The programs at the desk: all that have a main but those of cases.
DESK := $(filter-out %_cases %_vectors %_figure,$(patsubst crates/%/src/main.rt,%,$(wildcard crates/*/src/main.rt)))
PROGRAMS := $(addprefix target/bin/,$(DESK))
NAME := preempt-$(VERSION)
RELEASE := target/release/$(NAME)
UNPACKED := target/test-c/$(NAME)
EXAMPLE := $(addprefix examples/firmware/,main.c seven.bin expected)
PREFIX := /usr/local
INSTALLED := $(DESTDIR)$(PREFIX)

OPPONENT := PLANNER_LIB_DIR=$(CURDIR)/target/staticlib CARGO_TARGET_DIR=$(CURDIR)/target/opponent \
	cargo run --release --offline --locked --quiet --manifest-path tests/Cargo.toml --

.PHONY: lib parts example release install uninstall test-c test-format test-proof test-desk test-front test-picture test-texts test-readme opponent \
	opponent-bugs bench compare clean $(DESK)
.DELETE_ON_ERROR:
# Two calls of rt at once in one tree would wait for one another.
.NOTPARALLEL:

lib: $(LIB)

parts: $(LIB) $(PROBE) $(PROGRAMS)

$(DESK): %: target/bin/%

# Whether a file was made of the sources as they are, by rt ci or by rt.
is_made = test -e $(1) && test -z "$$(find crates.txt crates/*/src crates/*/specs crates/*/proofs -newer $(1))"

$(LIB): CRATE := firmware_c
$(PROBE): CRATE := probe
$(LIB) $(PROBE): $(SOURCES)
	mkdir -p $(@D)
	$(call is_made,crates/$(CRATE)/out/lib$(CRATE).a) || { cd crates/$(CRATE) && rt lib; }
	cp crates/$(CRATE)/out/lib$(CRATE).a $@

# rt run also runs the program that it makes.
$(PROGRAMS): target/bin/%: $(SOURCES)
	mkdir -p $(@D)
	$(call is_made,crates/$*/out/$*) || { cd crates/$* && rt run </dev/null >/dev/null; }
	cp crates/$*/out/$* $@

target/example/firmware: examples/firmware/main.c include/preempt.h $(LIB)
	mkdir -p $(@D)
	$(CC) $(CFLAGS) -Iinclude $< $(LIB) -o $@

# The plan in 'expected' is that of document 02, item 3, at Q 60. Without point 2 it is the list 1, which document 01 has refused; without point 1 its
# regions are 40 and 50 long, and the second reloads line 0. tests/format.py computes all of it from the documents.
example: target/example/firmware
	$< examples/firmware/seven.bin >target/example/printed
	diff examples/firmware/expected target/example/printed

$(RELEASE).tar.gz: $(LIB) include/preempt.h docs/LINKING.txt docs/FORMAT.txt VERSION $(EXAMPLE)
	rm -rf $(RELEASE)
	mkdir -p $(RELEASE)/lib $(RELEASE)/include $(RELEASE)/example
	cp $(LIB) $(RELEASE)/lib
	cp include/preempt.h $(RELEASE)/include
	cp $(EXAMPLE) $(RELEASE)/example
	cp docs/LINKING.txt docs/FORMAT.txt VERSION $(RELEASE)
	tar --sort=name --mtime=@0 --owner=0 --group=0 --numeric-owner -C target/release -czf $@ $(NAME)

release: $(RELEASE).tar.gz

install: $(LIB) $(PROGRAMS)
	install -d "$(INSTALLED)/bin" "$(INSTALLED)/libexec/preempt" "$(INSTALLED)/lib/pkgconfig" "$(INSTALLED)/include" \
		"$(INSTALLED)/share/man/man1" "$(INSTALLED)/share/doc/preempt"
	install preempt "$(INSTALLED)/bin"
	install $(PROGRAMS) "$(INSTALLED)/libexec/preempt"
	install -m 644 $(LIB) "$(INSTALLED)/lib"
	install -m 644 include/preempt.h "$(INSTALLED)/include"
	install -m 644 docs/preempt.1 "$(INSTALLED)/share/man/man1"
	install -m 644 README.md $(wildcard docs/*.txt docs/PROOF.md) "$(INSTALLED)/share/doc/preempt"
	printf '%s\n' 'prefix=$(PREFIX)' 'Name: preempt' 'Description: the planner of preemption points' 'Version: $(VERSION)' \
		'Cflags: -I$${prefix}/include' 'Libs: -L$${prefix}/lib -lfirmware' >"$(INSTALLED)/lib/pkgconfig/preempt.pc"

uninstall:
	rm -rf "$(INSTALLED)/libexec/preempt" "$(INSTALLED)/share/doc/preempt"
	rm -f "$(INSTALLED)/bin/preempt" "$(INSTALLED)/lib/libfirmware.a" "$(INSTALLED)/lib/pkgconfig/preempt.pc" \
		"$(INSTALLED)/include/preempt.h" "$(INSTALLED)/share/man/man1/preempt.1"

test-c: $(RELEASE).tar.gz
	rm -rf target/test-c
	mkdir -p target/test-c
	tar -C target/test-c -xzf $<
	has=$$(nm -g --defined-only $(UNPACKED)/lib/libfirmware.a | sed -n 's/^[0-9a-f]* [A-Z] //p' | sort | xargs); \
	test "$$has" = 'preempt_plan preempt_price' || { echo "the archive exports: $$has"; exit 1; }
	needs=$$(nm -u $(UNPACKED)/lib/libfirmware.a | sed -n 's/^ *U //p' | sort -u | xargs); \
	grep -q "needs: $$needs$$" $(UNPACKED)/LINKING.txt || { echo "LINKING.txt does not say that the archive needs: $$needs"; exit 1; }
	written=$$(size $(UNPACKED)/lib/libfirmware.a | awk 'NR > 1 { bytes += $$2 + $$3 } END { print bytes }'); \
	test "$$written" = 0 || { echo "the archive has $$written bytes of data that is written to"; exit 1; }
	cd $(UNPACKED) && sed -n 's/^  \$$ //p' LINKING.txt | sh -e | diff example/expected -
	for language in '$(CC) -std=c99 -x c' '$(CXX) -std=c++17 -x c++'; do \
		$$language $(STRICT) -I$(UNPACKED)/include $(UNPACKED)/example/main.c -x none $(UNPACKED)/lib/libfirmware.a -o target/test-c/example && \
		target/test-c/example $(UNPACKED)/example/seven.bin | diff $(UNPACKED)/example/expected - || exit 1; \
	done
	$(CC) $(CFLAGS) -DRELEASED="\"$$(cat $(UNPACKED)/VERSION)\"" -I$(UNPACKED)/include tests/c/release.c $(UNPACKED)/lib/libfirmware.a -o target/test-c/release
	target/test-c/release examples/firmware/seven.bin
	$(CC) $(CFLAGS) -Wl,-z,now -I$(UNPACKED)/include tests/c/stack.c $(UNPACKED)/lib/libfirmware.a -o target/test-c/stack
	target/test-c/stack examples/firmware/seven.bin

test-format: $(LIB)
	mkdir -p target/test-format
	$(CC) -shared -Wl,--whole-archive $(LIB) -Wl,--no-whole-archive -o target/test-format/libpreempt.so
	python3 tests/format.py target/test-format/libpreempt.so

test-proof:
	python3 tests/proof_page.py $(SAID)

test-desk: $(PROGRAMS)
	tests/desk.sh $(DESK)

test-front: $(LIB) $(PROGRAMS)
	python3 tests/front.py $(DESK)

test-picture: target/bin/plan target/bin/picture
	python3 tests/picture.py $(SEED) $(COUNT)

test-texts: $(PROGRAMS)
	python3 tests/texts.py $(SEED) $(COUNT)

test-readme: $(PROGRAMS) target/example/firmware
	python3 tests/readme.py

opponent: $(LIB) $(PROBE)
	$(OPPONENT) $(SEED) $(COUNT) $(CASE)

opponent-bugs: $(LIB) $(PROBE)
	$(OPPONENT) bugs

bench: $(LIB) $(PROBE)
	PLANNER_LIB_DIR=$(CURDIR)/target/staticlib CARGO_TARGET_DIR=$(CURDIR)/target/bench \
		cargo run --release --offline --locked --quiet --manifest-path bench/Cargo.toml

# The older calls are given other names, so that one program can have both.
compare: $(LIB) $(PROBE)
	test -d "$(OLD)" || { echo 'usage: make compare OLD=DIR'; exit 2; }
	mkdir -p target/compare
	for lib in firmware $(WITH); do \
		nm -g --defined-only $(OLD)/lib$$lib.a | sed -n 's/^[0-9a-f]* [A-Z] \(.*\)/\1 old_\1/p' >target/compare/names && \
		objcopy --redefine-syms=target/compare/names $(OLD)/lib$$lib.a target/compare/libold_$$lib.a || exit 1; \
	done
	PLANNER_LIB_DIR=$(CURDIR)/target/staticlib OLD_LIB_DIR=$(CURDIR)/target/compare CARGO_TARGET_DIR=$(CURDIR)/target/compare \
		cargo run --release --offline --locked --quiet --manifest-path bench/compare/Cargo.toml --features "$(WITH)" -- $(SEED) $(COUNT)

clean:
	rm -rf target crates/*/out
