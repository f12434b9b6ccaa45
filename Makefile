# The library for C hosts.
#
#   make                      build/libsoftspoken.a, from crates/host_c and what it is built of, each proved first
#   make install PREFIX=DIR   header, archive and pkg-config file under DIR (DESTDIR is put before it)
#   make build/batchprint     the program that prints a batch file for support, proved first; so build/foldprint
#   make test                 tests/run: what is tested beside the gate
#   make clean

# A pipe fails where one of its commands does.
SHELL := bash
.SHELLFLAGS := -o pipefail -c

.PHONY: all install test clean
.NOTPARALLEL:
all: build/libsoftspoken.a

# rt proves what is not proved yet, and then the crate itself, always. A line is shown for each crate that was proved, with its place among
# those that the archive is built of; all that rt and the prover say is in the log. libbench.a has single functions of the layers below,
# which bench/ and tests/ call.
PROVED := crates.txt $(shell find crates -name out -prune -o \( -name '*.rt' -o -name '*.antt' \) -print 2>/dev/null)
build/libsoftspoken.a: crate = host_c
build/libbench.a: crate = bench
log = build/$(crate).log
# the crates that it is built of, lowest first, as rt takes them
needed = $(shell awk -F: '{ sub(/\#.*/, ""); split($$1, word, " ") } word[1] != "" { needs[word[1]] = $$2 } \
    function visit(c, list, n, i) { if (c in needs && !seen[c]++) { n = split(needs[c], list, " "); \
        for (i = 1; i <= n; i++) visit(list[i]); print c } } \
    END { visit("$(crate)") }' crates.txt)
build/libsoftspoken.a build/libbench.a: $(PROVED)
	@mkdir -p build
	@echo 'proving $(crate) and the $(words $(filter-out $(crate),$(needed))) crates that it is built of, where they are not proved yet (notes: $(log))'
	@(cd crates/$(crate) && rt lib) 2>&1 | tee $(log) | while read -r line; do \
	    case $$line in 'crate '*': modules '*) ;; *) continue ;; esac; \
	    new=$${line#crate } new=$${new%%:*} at=0; \
	    for name in $(needed); do at=$$((at + 1)); if [ $$name = $$new ]; then break; fi; done; \
	    echo "$$at of $(words $(needed)): $$new ($$SECONDS s)"; SECONDS=0; \
	done || { cat $(log); exit 1; }
	@if grep 'axioms=' $(log); then echo 'the proof rests on assumed C functions'; exit 1; fi
	cp crates/$(crate)/out/lib$(crate).a $@

# The programs for support, each proved, built and run on its stored input.
build/batchprint build/foldprint: $(PROVED)
	@mkdir -p build
	@echo 'proving $(@F), and what it is built of, where that is not proved yet (notes: build/$(@F).log)'
	@(cd crates/$(@F) && rt run <stdin 2>../../build/$(@F).log | cmp - stdout) || { cat build/$(@F).log; exit 1; }
	cp crates/$(@F)/out/$(@F) $@

# A relative prefix is made absolute. Its first word tells, if there are spaces in it.
PREFIX ?= /usr/local
prefix = $(if $(filter-out /%,$(firstword $(PREFIX))),$(CURDIR)/)$(PREFIX)
to = $(DESTDIR)$(prefix)
VERSION := $(shell awk '/define SOFTSPOKEN_VERSION_(MAJOR|MINOR|PATCH) / { printf "%s%s", dot, $$3; dot = "." }' include/softspoken.h)
install: build/libsoftspoken.a
	install -d "$(to)/include" "$(to)/lib/pkgconfig"
	install -m 644 include/softspoken.h "$(to)/include"
	install -m 644 build/libsoftspoken.a "$(to)/lib"
	printf '%s\n' "prefix=$(prefix)" 'Name: softspoken' 'Description: oblivious transfer extension, proved' 'Version: $(VERSION)' \
	    'Cflags: -I"$${prefix}/include"' 'Libs: -L"$${prefix}/lib" -lsoftspoken' >"$(to)/lib/pkgconfig/softspoken.pc"

test:
	tests/run

clean:
	rm -rf build
