# Thin: `rt` proves, builds and tests. See README.md.
PREFIX ?= /usr/local

# How many crates are proved at a time: one for each processor, and for each 3 GB of the memory that is free.
JOBS ?= $(shell awk -v wanted="$$(nproc)" '/^MemAvailable/ { fit = int($$2 / 3000000); \
	print fit < 1 ? 1 : fit < wanted ? fit : wanted }' /proc/meminfo)

PROGRAMS = heapsuite heaprec
SCRIPTS = heapsuite-leaks heapsuite-symbols heapsuite-compare heapsuite-budget
COMPLETIONS = completions/_heapsuite completions/heapsuite.bash completions/heapsuite.fish
BIN = $(DESTDIR)$(PREFIX)/bin
MAN = $(DESTDIR)$(PREFIX)/share/man/man1
BASH = $(DESTDIR)$(PREFIX)/share/bash-completion/completions
ZSH = $(DESTDIR)$(PREFIX)/share/zsh/site-functions
FISH = $(DESTDIR)$(PREFIX)/share/fish/vendor_completions.d

.PHONY: demo build test sweep completions install uninstall

# A summary of an example.
demo: build
	bin/heapsuite summary examples/two-sizes.trace

# Proves both programs with all that they stand on, and builds them: the gate, over a copy with neither tests nor must-fail edits. It
# begins with what most waits for, and what passed is kept beside the toolchain, for the next build and for `make test`.
build:
	copy=$$(mktemp -d) && trap 'rm -rf "$$copy"' EXIT INT TERM && mkdir "$$copy/.git" && \
	tar -cf - --exclude=out --exclude=must-fail --exclude='crates/*_tests' HANDLES crates | tar -xf - -C "$$copy" && \
	grep -v '^[a-z_]*_tests[ :]' crates.txt > "$$copy/crates.txt" && \
	(cd "$$copy" && RT_JOBS=$(JOBS) rt ci) && mkdir -p bin && \
	cp $(foreach it,$(PROGRAMS),"$$copy"/crates/$(it)/out/$(it)) bin/

$(PROGRAMS:%=bin/%):
	$(MAKE) build

test:
	rt ci

# Fails each call of both programs once. It stands outside the gate.
sweep: $(PROGRAMS:%=bin/%)
	bench/sweep bin

# The completions of heapsuite, which are written of its page.
completions: $(COMPLETIONS)
$(COMPLETIONS) &: man/heapsuite.1 completions/make
	completions/make

# Takes the programs that stand in bin/, and builds them only where they aren't there. Bash and fish look for a completion by the
# name of the command, so that of the scripts stands there under the name of each.
install: $(PROGRAMS:%=bin/%) $(COMPLETIONS)
	install -d "$(BIN)" "$(MAN)" "$(BASH)" "$(ZSH)" "$(FISH)"
	install $(PROGRAMS:%=bin/%) $(SCRIPTS:%=scripts/%) "$(BIN)"
	install -m 644 $(PROGRAMS:%=man/%.1) $(SCRIPTS:%=man/%.1) "$(MAN)"
	install -m 644 $(PROGRAMS:%=completions/_%) completions/_heapsuite_scripts "$(ZSH)"
	for program in $(PROGRAMS); do \
	    install -m 644 completions/$$program.bash "$(BASH)/$$program" && \
	    install -m 644 completions/$$program.fish "$(FISH)" || exit 1; done
	for script in $(SCRIPTS); do \
	    install -m 644 completions/heapsuite-scripts.bash "$(BASH)/$$script" && \
	    install -m 644 completions/heapsuite-scripts.fish "$(FISH)/$$script.fish" || exit 1; done

uninstall:
	for name in $(PROGRAMS) $(SCRIPTS); do \
	    rm -f "$(BIN)/$$name" "$(MAN)/$$name.1" "$(BASH)/$$name" "$(ZSH)/_$$name" "$(FISH)/$$name.fish" || exit 1; done
	rm -f "$(ZSH)/_heapsuite_scripts"
