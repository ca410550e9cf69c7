# Builds the proved assembler as build/as; `make check` is the whole gate.

PREFIX ?= /usr/local
DESTDIR ?=

# The crates of the program, lowest first, and their files; a folder among these tells when a file in it is gone.
PROGRAM := asm_cli
CRATES := $(shell awk -v program=$(PROGRAM) -f tools/stands_on.awk crates.txt)
SOURCES := $(shell find $(wildcard $(foreach part,src specs proofs data,$(CRATES:%=crates/%/$(part)))))

all: build/as build/gcc/as

# Proofs are those of the gate: an rt that keeps proofs makes them once for both.
build/as: crates.txt HANDLES $(SOURCES)
	@mkdir -p build
	@tools/prove.sh $@ build/log $(CRATES)

# For `gcc -Bbuild/gcc/`: gcc calls its assembler by the name `as`.
build/gcc/as: tools/gcc/as
	@mkdir -p build/gcc
	@cp tools/gcc/as $@

# The object of examples/first.s, by build/as where it is there, and else by the program before its proof.
demo:
	@mkdir -p build
	@if test -x build/as; then echo "Assembled by build/as."; build/as -o build/first.o examples/first.s; else \
	echo "Assembled by the program before its proof, which takes some two minutes; make proves it."; \
	cd crates/$(PROGRAM) && rt try -- -o $(CURDIR)/build/first.o $(CURDIR)/examples/first.s; fi
	readelf -hSs build/first.o
	objdump -d build/first.o

check:
	rt ci

# What no clause can say: the built program on files and streams that fail, and in little memory, and its objects
# linked by gcc, those of random C programs with them, and the frame tables of these, also step by step beside what
# calls really saved, and their line tables as debuggers read them. Random expressions beside Python's integers, and
# the objects of random sources, those with macros too, and the code of random instructions beside those of the
# machine's GNU as, and beside their Intel forms. Hostile sources, of random bytes and words and of real ones with
# parts changed; runs in which one allocation is refused. The rows of the instruction table beside the machine's
# objdump, and what is made of them: a document, and the indices and keys by which they are found. The functions of the
# rows of the analysis of the stack beside a model. The examples of README and docs/USING.md.
check-outside: all
	checks/examples.py build/as
	checks/outside.sh build/as
	checks/limits.sh build/as
	checks/tables.sh build/as
	checks/gcc.sh build/gcc
	checks/weak_alias.sh build/gcc
	checks/functions.sh build/as
	checks/programs.py --ours build/as
	checks/expressions.py build/as
	checks/compare.py --ours build/as
	checks/macros.py --ours build/as
	checks/instructions.py --ours build/as
	checks/intel.py --ours build/as
	checks/frames.py --ours build/as
	checks/steps.py --ours build/as
	checks/lines.py --ours build/as
	checks/cxx.sh build/as
	checks/hostile.py --ours build/as --count 400
	checks/refused.py --ours build/as --most 200
	checks/rows.py
	checks/stacks.py
	tools/instructions.py --check
	tools/instruction_indices.py --check

# No test, and no part of the gate: times build/as beside the machine's GNU as.
bench: build/as
	@python3 bench/bench.py $(BENCH_OPTIONS)

install: build/as build/gcc/as
	install -d $(DESTDIR)$(PREFIX)/bin $(DESTDIR)$(PREFIX)/share/man/man1 $(DESTDIR)$(PREFIX)/libexec/as/gcc
	install -m 755 build/as $(DESTDIR)$(PREFIX)/bin/as
	install -m 644 docs/as.1 $(DESTDIR)$(PREFIX)/share/man/man1/as.1
	install -m 755 build/gcc/as $(DESTDIR)$(PREFIX)/libexec/as/gcc/as

# A tarball of what is installed, with the documents, what it was proved by, and checksums.
NAME := as-x86-64-$(shell git rev-parse --short HEAD 2>/dev/null || echo unknown)
dist: build/as build/gcc/as
	@rm -rf build/$(NAME)
	@$(MAKE) --no-print-directory install DESTDIR= PREFIX=$(CURDIR)/build/$(NAME) >/dev/null
	@cp -r README.md docs build/$(NAME)
	@{ echo "commit $$(git rev-parse HEAD)"; git diff --quiet HEAD || echo "with changes that are in no commit"; \
	echo "proved by $$(rt version)"; } >build/$(NAME)/PROVED
	@cd build/$(NAME) && find . -type f ! -name SHA256SUMS | LC_ALL=C sort | xargs sha256sum >SHA256SUMS
	@cd build && tar -czf $(NAME).tar.gz $(NAME) && sha256sum $(NAME).tar.gz

clean:
	rm -rf build

.PHONY: all demo check check-outside bench install dist clean
