.PHONY: help look demo dist deb install uninstall \
    test cases prove build tools memory bench compare pmars

PROGRAM = crates/cwtune/out/cwtune
PREFIX = /usr/local
PYTHON = python3 -m
# CDPATH may lead `cd` elsewhere.
unexport CDPATH

# Lists the targets, each with the first sentence of the comment above it.
help:
	@awk '/^# /{s = s substr($$0, 2)} /^[a-z]+:/{sub(/:.*/, ""); sub(/\. .*/, ".", s); \
	    printf "%-10s%s\n", $$0, s} !/^#/{s = ""}' Makefile

# Tunes examples/tuning/stone.red in about two minutes. A first look, with a quick build that is not
# proved.
look:
	@sh examples/look.sh

# Runs the whole gate on a copy of the tree: all proofs, tests, edits that must be refused, and
# trials of the program. The last line is `N passed, N failed`. Installs nothing: trials whose tools
# are not installed are left out, and named before the last line.
test:
	@$(PYTHON) gate.gate

# Proves and builds the program, and plays the cases. Then come the pipes, the terminals and the
# cuts, without the rest of the gate.
cases: build
	@for one in play_cases pipes terminals cuts; do $(PYTHON) gate.$$one "$(PROGRAM)" || exit 1; done

# Proves the crates one by one, with a line for each. Does nothing if the program is built: `build`
# then proves what has changed.
prove:
	@[ -x "$(PROGRAM)" ] || sh gate/prove.sh

# Proves and builds the program, and runs it once on its stored input.
build: prove
	@cd crates/cwtune && rt run < stdin > /dev/null

# Plays, assembles, tunes and checks the examples. Fails if a result is not the expected one.
demo: build
	@sh examples/demo.sh "$(PROGRAM)"

# Measures turns, assemblies and settings per second. PMARS=PATH measures a pMARS server build too,
# RUNS=N plays each fight N times.
bench: build
	@$(PYTHON) bench.measure --program "$(PROGRAM)" $(if $(PMARS),--pmars "$(PMARS)") \
	    $(RUNS:%=--runs %)

# Refuses each request for memory of some runs in turn. Fails if a run ends neither with its own
# result nor with `failed: OutOfMemory`.
memory: build
	@$(PYTHON) gate.refuse.memory "$(PROGRAM)"

# Runs the commands for authors on the examples. Proves and builds the program first, and compares
# with the stored results (docs/TOOLS.md has the commands). Leaves out the trials whose tools are
# not installed, and names them.
tools: build
	@$(PYTHON) author.tests.run

# Plays a thousand fights and assembles texts by pMARS too. Fails if something differs that is not
# known to. PMARS=PATH is a server build; without it one is built. SEED=N repeats a comparison,
# and FIGHTS=N and TEXTS=N say how much is compared.
compare: build
	@$(PYTHON) pmars.compare $(SEED:%=--seed %) $(FIGHTS:%=--fights %) $(TEXTS:%=--texts %) \
	    "$(or $(PMARS),$$(sh pmars/pmars.sh))"

# Builds pMARS 0.9.2 without a display. Takes Debian's sources, and prints the path of the program.
pmars:
	@sh pmars/pmars.sh

# A program that was built before, instead of one that is built and proved here: BUILT=FILE
# DIGEST=SHA256, and PROVED=FILE of its release if there is one.
BEFORE = $(if $(BUILT),--built "$(BUILT)") $(DIGEST:%=--digest %) \
    $(if $(PROVED),--proved "$(PROVED)")

# Packs the release into dist/. It has the proved program with its manual pages, the commands,
# examples and documents.
dist: $(if $(BUILT),,build)
	@$(PYTHON) release.dist tar dist $(BEFORE)

# Makes a Debian package of the release in dist/. BUILT=FILE DIGEST=SHA256 takes a program that was
# built before, and the package says that it was not proved here, or what PROVED=FILE says.
deb: $(if $(BUILT),,build)
	@$(PYTHON) release.dist deb dist $(BEFORE)

# Puts the release below PREFIX, by default /usr/local. DESTDIR=FOLDER puts it below FOLDER/PREFIX,
# to be packed from there.
install: $(if $(BUILT),,build)
	@$(PYTHON) release.dist install "$(DESTDIR)$(PREFIX)" $(BEFORE)

# Removes what `make install` put below PREFIX, or below DESTDIR/PREFIX.
uninstall:
	@$(PYTHON) release.dist uninstall "$(DESTDIR)$(PREFIX)"
