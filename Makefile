PREFIX ?= /usr/local
PYTHON ?= /usr/bin/python3

# The two programs and the libraries that they stand on, the lowest first; what only cases use is the gate's.
parts := $(shell awk -F: '/^[a-z]/ { below[$$1] = $$2 } \
	function visit(it, names, n, i) { if (it in seen || !(it in below)) return; seen[it]; n = split(below[it], names, " "); \
	for (i = 1; i <= n; i++) visit(names[i]); print it } END { visit("iolb_cli"); visit("iolb_explain") }' crates.txt)
sources := crates.txt HANDLES $(shell find $(parts:%=crates/%) \( -name '*.rt' -o -name '*.antt' \) -not -path '*/out/*')

.PHONY: all quick first built dist test docs front install uninstall clean

all: bin/PROVED.txt bin/iolb bin/iolb-explain

# The prover of the gate works on a copy that has no edits and no cases: each crate is proved as soon as those below it are, as
# many side by side as processors and memory allow, and the programs are compiled and run on their stored examples.
bin/PROVED.txt bin/iolb bin/iolb-explain &: $(sources)
	@mkdir -p bin
	@facts=$$(tools/build facts) && room=$$(mktemp -d) && trap 'rm -rf "$$room"' EXIT && mkdir "$$room/crates" \
	&& for it in $(parts); do mkdir "$$room/crates/$$it" && (cd crates/$$it && cp -r $$(ls | grep -vx -e out -e must-fail -e README.md) "$$room/crates/$$it") || exit 1; done \
	&& cp HANDLES "$$room" && for it in $(parts); do grep "^$$it:" crates.txt; done > "$$room/crates.txt" \
	&& (cd "$$room" && rt ci 2>&1) | tee bin/build.log | awk '/^rt: [a-z0-9_]+ (proved$$|is kept:)/ { print ++done " of $(words $(parts)): " $$2; fflush() }' \
	&& tail -n 1 bin/build.log | grep -q ' passed, 0 failed$$' || { test -z "$$room" || tail -n 40 bin/build.log; exit 1; } \
	&& tools/build proved "$$room" "$$facts"
	@echo "bin/iolb and bin/iolb-explain are built, and every proof was checked"

# The same programs without their proofs.
quick:
	@tools/build quick

# The first answer from a fresh clone is timed, and what the builds say where something is missing is held against what they are to say.
first:
	tools/first
	tools/missing

built:
	@test -e bin/BUILT || { echo "make: nothing is built: \`make\` checks the proofs and builds the programs, \`make quick\` builds them alone" >&2; exit 1; }
	@test -z "$$(find crates.txt $(parts:%=crates/%) -type f \( -name crates.txt -o -path '*/src/*.rt' \) -newer bin/BUILT)" || echo "make: note: the sources are newer than the programs in bin/" >&2

# The archive and the Debian package of a proved build.
dist:
	tools/dist

test:
	rt ci

# The pages' commands print what the pages say, the gallery is what the programs say, the schemas of the package hold of the
# shipped texts, every script says what it does, and the tests of the Python module pass: those of SymPy, matplotlib and a picture of
# a report in headless Chromium where Debian's python3-sympy, python3-matplotlib and chromium are installed.
docs: built
	bench/pages bin/iolb
	bench/gallery bin
	bench/schemas bin/iolb
	bench/helps bin
	$(PYTHON) -m unittest discover -s package/python/tests

# Nests of ordinary C are run, and compared with the programs that iolb-prepare writes for them; FOLDERS of further C may be named.
front: built
	front/check-nests bin/iolb front/nests $(FOLDERS)

# What users call beside the programs: a script stands in share/iolb/scripts, and in bin is a link of its name with iolb- before it.
# Folders hold what scripts import.
scripts := bench/curve bench/stores bench/assumptions $(wildcard bench/report front/iolb-prepare)
imported := $(wildcard front/prepare) package/python/iolb
called = iolb-$(patsubst iolb-%,%,$(notdir $(1)))

binaries := $(DESTDIR)$(PREFIX)/bin
share := $(DESTDIR)$(PREFIX)/share
pages := $(share)/doc/iolb
completions := $(share)/bash-completion/completions/iolb $(share)/bash-completion/completions/iolb-explain $(share)/zsh/site-functions/_iolb $(share)/zsh/site-functions/_iolb-explain
installed := $(binaries)/iolb $(binaries)/iolb-explain $(patsubst package/%,$(share)/man/man1/%,$(wildcard package/*.1)) $(completions) $(foreach it,$(scripts),$(binaries)/$(call called,$(it)))

install: built
	install -D -m 755 bin/iolb $(binaries)/iolb
	install -D -m 755 bin/iolb-explain $(binaries)/iolb-explain
	install -d $(share)/man/man1
	install -m 644 package/*.1 $(share)/man/man1
	install -D -m 644 package/iolb.bash $(share)/bash-completion/completions/iolb
	install -D -m 644 package/iolb-explain.bash $(share)/bash-completion/completions/iolb-explain
	install -D -m 644 package/_iolb $(share)/zsh/site-functions/_iolb
	install -D -m 644 package/_iolb-explain $(share)/zsh/site-functions/_iolb-explain
	install -d $(share)/iolb/schemas $(share)/iolb/scripts $(pages)/docs/pictures $(pages)/examples/gallery
	install -m 644 package/schemas/*.json $(share)/iolb/schemas
	install -m 644 package/problem-matcher.json $(share)/iolb
	$(foreach it,$(scripts),install -m 755 $(it) $(share)/iolb/scripts/$(call called,$(it)) && ln -sf ../share/iolb/scripts/$(call called,$(it)) $(binaries)/$(call called,$(it)) &&) true
	$(foreach it,$(imported),install -d $(share)/iolb/scripts/$(notdir $(it)) && install -m 644 $(it)/*.py $(share)/iolb/scripts/$(notdir $(it)) &&) true
	install -m 644 README.md VERSION CITATION.cff bin/BUILT $(wildcard bin/PROVED.txt) $(pages)
	install -m 644 docs/*.md $(pages)/docs
	install -m 644 docs/pictures/* $(pages)/docs/pictures
	install -m 644 $(wildcard examples/*.*) $(pages)/examples
	install -m 644 examples/gallery/* $(pages)/examples/gallery

uninstall:
	rm -f $(installed)
	rm -rf $(share)/iolb $(pages)

clean:
	rm -rf bin dist crates/*/out
