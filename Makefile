# Prushgoli. `make test` is the whole gate, `make run` the program trace on an example, `make lib` the library for C.
.PHONY: help test evidence bench can-fail peers run readable lib install uninstall clean
.DELETE_ON_ERROR:
# A second run of rt would wait for the first.
.NOTPARALLEL:

PREFIX = /usr/local
TRACE = examples/first.trace

help:
	@echo 'make run [TRACE=file]   report on a trace, or on bytes in hex in a file .hex; without a file, on examples/first.trace'
	@echo 'make lib    prove and build the library for C: libprushgoli.a, prushgoli.h and prushgoli.pc in build/'
	@echo 'make install [PREFIX=/usr/local] [DESTDIR=]   install these three in lib/ and include/, and the programs'
	@echo '            prushgoli-trace and prushgoli-hex in bin/; make uninstall removes them'
	@echo 'make test   run every test, and prove every crate that was not proved on this machine; last line: N passed, 0 failed'
	@echo 'make evidence   two pages for the inspector, in build/evidence/: index.html, runs and what the gate found, and'
	@echo '            definitions.html, the rules of the format beside the definitions; runs the gate where its record is old'
	@echo 'make bench  count the instructions of each call, beside those of a plain C implementation'
	@echo 'make can-fail   show that the tests notice faults'
	@echo 'make peers  compare with what the CAN decoder of sigrok reads in lines of ours, and show that this notices faults'
	@echo 'make clean  remove build/; what rt has proved stays'

# $(call quoted,VARIABLE): its value as a word of the shell, just as it was given, whatever stands in it.
quoted = '$(subst ','\'',$(value $(1)))'

rt = command -v rt >/dev/null || { echo 'make $@: the Rattle toolchain is missing (no command rt)' >&2; exit 1; }

# What a step of the gate prints is kept too, in build/gate: the record that `make evidence` shows. Until the gate has ended, `end` is
# empty, and older than every source.
keep = 2>&1 | tee build/gate

# What needs no proof comes first. `rt ci` proves every crate from nothing, or knows that it did so before on this machine, with the
# same files; it tries each must-fail edit, and refuses files that are not laid out. It passes where an edit is bad, one that the
# prover did not come to: the gate does not. The library and the program are then built over what it left. evidence/build makes
# the pages and has tests/evidence check them. The closing line of `rt ci` is the gate's: it is said again at the end.
test: SHELL = /bin/bash -o pipefail
test:
	@$(rt)
	@. tests/x86-64 && x86_need 'command -v python3' python3
	@mkdir -p build/gate && : >build/gate/end && touch -d @0 build/gate/end
	@{ evidence/source && echo "machine $$(uname -m)" && echo "cores $$(nproc)" && date +'time %s'; } >build/gate/begin
	rt version $(keep)/version
	tests/total $(keep)/total
	tests/documents
	tests/header $(keep)/header
	rt ci $(keep)/ci
	@edits=$$(find crates -path '*/must-fail/*.edit' | wc -l); \
	grep -Eq "^rt: ok; .*; must-fail edits: $$edits refused(, [0-9]+ of them only by a limit)?;" build/gate/ci || \
	{ echo "make test: not all of the $$edits must-fail edits were refused" >&2; exit 1; }
	@find build -mindepth 1 -maxdepth 1 ! -name gate -exec rm -rf {} +
	tests/documents build/gate/ci $(keep)/documents
	$(MAKE) lib $(keep)/lib
	$(MAKE) build/bin/trace $(keep)/program
	tests/archive $(keep)/archive
	tests/example $(keep)/example
	tests/readme $(keep)/readme
	tests/compare/run $(keep)/compare
	tests/trace/run $(keep)/trace
	tests/programs $(keep)/programs
	tests/first $(keep)/first
	@date +'time %s' >build/gate/end && touch -r build/gate/begin build/gate/end
	evidence/build
	@tail -n 1 build/gate/ci

# The pages are made anew each time: they name the commit, of which make knows nothing.
evidence: build/gate/end lib
	@evidence/build
	@echo build/evidence/index.html
	@echo build/evidence/definitions.html

# Has the time at which the gate began. The gate makes the pages itself, not by these rules, so that it never starts itself.
# A trace is left out: it would be made anew from its .hex, and be newer than the gate. So is the folder bench: make takes
# it for the goal.
build/gate/end: $(filter-out %.trace bench,$(shell evidence/tested folders))
	@echo 'make evidence: there is no record of the gate on these sources; it runs first' >&2
	@$(MAKE) test

# Not part of the gate: it measures.
bench: lib build/bin/trace
	@bench/run

can-fail: lib build/bin/trace
	tests/compare/can-fail
	tests/trace/can-fail
	tests/can-fail
	bench/can-fail
	@if [ -f build/evidence/index.html ]; then tests/evidence/can-fail; \
	else echo 'make can-fail: no fault of the page was tried: there is none, make evidence makes it' >&2; fi

# Not part of the gate, which should not hang on what the peers will be. The closing line is said again at the end.
peers: lib
	@tests/peers/run
	@tests/peers/can-fail
	@tail -n 1 build/peers/said

# On a machine that is not x86-64 the program runs under qemu, which tests/x86-64 installs.
run: readable build/bin/trace
	@. tests/x86-64 && PRUSHGOLI_LIBEXEC=build/bin programs/prushgoli-trace <$(run-on)

# What the program reads: the file, or the trace of it where its name ends in .hex.
run-on = $(if $(filter %.hex,$(lastword $(value TRACE))),build/run.trace,$(call quoted,TRACE))

# Comes first: for a file that cannot be read, or has a fault, nothing is proved.
readable:
	@mkdir -p build
	@trace=$(call quoted,TRACE); refuse() { printf 'make run: %s\n' "$$*" >&2; exit 1; }; \
	[ -e "$$trace" ] || refuse "there is no file '$$trace'"; \
	[ ! -d "$$trace" ] || refuse "'$$trace' is a folder; TRACE=file names a trace, or a file .hex"; \
	[ -r "$$trace" ] || refuse "the file '$$trace' may not be read"; \
	case $$trace in (*.hex) programs/prushgoli-hex "$$trace" >build/run.trace;; esac

# Folders are sources too, so that a file that is gone is noticed; but not those of the crates, in which rt makes out/.
SOURCES = crates.txt $(shell find crates -mindepth 2 \( -path 'crates/*/must-fail' -o -path 'crates/*/out' \) -prune -o -print)

# What rt makes gets the time at which its proof began, so that what was edited meanwhile is newer.
begin = mkdir -p build && touch build/started
date = touch -c -r build/started $@

# All that this prints goes to standard error: the output of `make run` is the report alone. `rt check` says which contracts of C
# the program rests on; `rt run` builds it, and runs it once.
build/bin/trace: $(SOURCES)
	@$(rt)
	@echo 'rt check trace: the program is proved before it is built, which takes some minutes' >&2
	@$(begin) && mkdir -p build/bin
	@cd crates/trace && rt check --list-axioms >&2 && rt run <stdin >../../build/run.report
	@cp crates/trace/out/trace $@
	@$(date)

# The trace is replaced only when all of it is there.
%.trace: %.hex
	@mkdir -p build
	programs/prushgoli-hex '$(subst ','\'',$<)' >build/trace.new
	@mv build/trace.new '$(subst ','\'',$@)'

lib: build/libprushgoli.a build/prushgoli.h build/prushgoli.pc
	@echo 'prushgoli $(version): $^'

build/libprushgoli.a: $(SOURCES)
	@$(rt)
	@$(begin)
	cd crates/prushgoli_c && rt lib
	cp crates/prushgoli_c/out/libprushgoli_c.a $@
	@$(date)

build/prushgoli.h: include/prushgoli.h
	@mkdir -p build
	cp $< $@

# The header has the version, a number to a line.
version = $(shell sed -n 's/^\#define PRUSHGOLI_VERSION_[A-Z]* //p' include/prushgoli.h | paste -s -d .)

# $(call pc,LIB,INCLUDE): the text of the .pc file, for the prefix that the environment has and the folders below it.
pc = perl -pe 's|\@prefix\@|$$ENV{prefix}|; s|\@lib\@|$(1)|; s|\@include\@|$(2)|; s|\@version\@|$(version)|' prushgoli.pc.in

# The one in build/ is for use from there: PKG_CONFIG_PATH=build.
build/prushgoli.pc: prushgoli.pc.in include/prushgoli.h
	@mkdir -p build
	prefix='$${pcfiledir}' && export prefix && $(call pc) >$@

# In a prefix pkg-config wants a backslash before what ends a word or starts a comment.
to = $(call quoted,DESTDIR)$(call quoted,PREFIX)
install: lib build/bin/trace
	install -d $(to)/lib/pkgconfig $(to)/include $(to)/bin $(to)/libexec/prushgoli
	install -m 644 build/libprushgoli.a $(to)/lib
	install -m 644 build/prushgoli.h $(to)/include
	prefix=$$(realpath -ms -- $(call quoted,PREFIX) | sed 's/[ "#\\'\'']/\\&/g') && export prefix && \
	$(call pc,/lib,/include) | install -m 644 /dev/stdin $(to)/lib/pkgconfig/prushgoli.pc
	install build/bin/trace $(to)/libexec/prushgoli
	install programs/prushgoli-trace programs/prushgoli-hex $(to)/bin

uninstall:
	cd $(to) && rm -f lib/libprushgoli.a lib/pkgconfig/prushgoli.pc include/prushgoli.h bin/prushgoli-trace bin/prushgoli-hex
	rm -rf $(to)/libexec/prushgoli

clean:
	rm -rf build
