# make try WORDS='COMMAND ARGUMENTS' [LOG=FILE]: runs any command by the kit's quick build, with LOG as its standard input.
#   It takes some two minutes, proves nothing and leaves nothing. WORDS may have quotes. With BY=PROGRAM it is run by a
#   program that is there, as build/quick/cyphal.
# make run [PLAN=FILE] [LOG=FILE] [ROOT=FOLDER]: the same of `cyphal run ROOT PLAN`. Without PLAN and LOG it takes those of
#   examples/first, without ROOT no types.
# make build [JOBS=N]: proves the program and leaves it, optimised, as build/cyphal, and build/cyphal-draw beside it. From
#   nothing that proves every crate below it, N at a time: one a processor, as far as there are 5 GB of free memory for each.
# make install [PREFIX=FOLDER] [DESTDIR=FOLDER]: copies build/cyphal, cyphal-draw, man page, completions, guide, reference
#   and examples.
# make uninstall [PREFIX=FOLDER] [DESTDIR=FOLDER]: removes what make install copies.
# make deb: makes a package of Debian of the same, build/cyphal_VERSION_ARCHITECTURE.deb.
# make check: what a change does before anything of it is proved: the program by the kit's quick build, left as
#   build/quick/cyphal, and on it all rows but the large ones, the pages' examples and the other scripts of the gate. It takes
#   some five minutes on four processors, and proves nothing.
# make test: the whole gate: proofs, must-fail edits, tests and programs, pages.
# make bench: how fast build/cyphal is and what it holds, over short logs and lines of values.

SHELL = /bin/bash
.SHELLFLAGS = -o pipefail -c

ROOT = none
PLAN = examples/first/plan
LOG = /dev/null
WORDS =
BY =
JOBS = $(shell bench/jobs)
PREFIX = /usr/local
INSTALL = install

# The shell puts the folders in, so that they may have blanks.
export PREFIX DESTDIR
BIN = "$$DESTDIR$$PREFIX"/bin
DOC = "$$DESTDIR$$PREFIX"/share/doc/cyphal
MAN = "$$DESTDIR$$PREFIX"/share/man/man1
BASH_COMPLETIONS = "$$DESTDIR$$PREFIX"/share/bash-completion/completions
ZSH_FOLDER = site-functions
ZSH_COMPLETIONS = "$$DESTDIR$$PREFIX"/share/zsh/$(ZSH_FOLDER)

.PHONY: try run build built install uninstall deb check test bench

# What names a file comes to bench/try by the environment, as it was typed: no recipe has it, and make expands none of it.
unexport WORDS ROOT PLAN LOG BY
try run: export by = $(value BY)
try run: export log = $(value LOG)
try: export words = $(value WORDS)
run: export root = $(value ROOT)
run: export plan = $(value PLAN)
run: LOG = examples/first/log

try:
	@bench/try $${by:+--by "$$by"} "$$log" --words "$$words"

run:
	@bench/try $${by:+--by "$$by"} "$$log" run "$$root" "$$plan"

build:
	cd crates/cyphal && rt all check --jobs $(JOBS) && rt run -- --version
	mkdir -p build
	cp crates/cyphal/out/cyphal build/cyphal
	cp share/cyphal/draw build/cyphal-draw

built:
	@test -x build/cyphal || { echo 'There is no build/cyphal: make build proves the program and leaves it.' >&2; exit 1; }

install: built
	$(INSTALL) -d $(BIN) $(MAN) $(BASH_COMPLETIONS) $(ZSH_COMPLETIONS) $(DOC)
	$(INSTALL) -m 755 build/cyphal $(BIN)/cyphal
	$(INSTALL) -m 755 share/cyphal/draw $(BIN)/cyphal-draw
	$(INSTALL) -m 644 docs/cyphal.1 $(MAN)/cyphal.1
	$(INSTALL) -m 644 completions/cyphal.bash $(BASH_COMPLETIONS)/cyphal
	$(INSTALL) -m 644 completions/_cyphal $(ZSH_COMPLETIONS)/_cyphal
	$(INSTALL) -m 644 LICENSE CHANGELOG.md docs/guide.md docs/theorems.md $(DOC)
	cp -R examples docs/pictures docs/reference $(DOC)
	chmod -R u=rwX,go=rX $(DOC)/examples $(DOC)/pictures $(DOC)/reference

uninstall:
	rm -f $(BIN)/cyphal $(BIN)/cyphal-draw $(MAN)/cyphal.1 $(BASH_COMPLETIONS)/cyphal $(ZSH_COMPLETIONS)/_cyphal
	rm -rf $(DOC)

# As Debian has it: /usr, the man page and the changes compressed, the licence as copyright, zsh's folder for packages.
deb: built
	rm -rf build/deb
	$(MAKE) install DESTDIR=build/deb PREFIX=/usr ZSH_FOLDER=vendor-completions
	cd build/deb/usr/share && mv doc/cyphal/LICENSE doc/cyphal/copyright && mv doc/cyphal/CHANGELOG.md doc/cyphal/changelog
	gzip -9n build/deb/usr/share/man/man1/cyphal.1 build/deb/usr/share/doc/cyphal/changelog
	$(INSTALL) -d build/deb/DEBIAN
	sed -e "s/@VERSION@/$$(build/cyphal --version | cut -d ' ' -f 2)/" -e "s/@ARCHITECTURE@/$$(dpkg --print-architecture)/" \
	  -e "s/@SIZE@/$$(du -sk build/deb/usr | cut -f 1)/" packaging/control > build/deb/DEBIAN/control
	dpkg-deb --root-owner-group --build build/deb build

check:
	bench/quick build/quick/cyphal
	@bench/rest --quick build/quick/cyphal; ended=$$?; \
	  echo 'make check: nothing of this was proved; that is what make test does.'; exit $$ended

test:
	.ci/run

bench: built
	bench/run --short build/cyphal
	bench/values --short build/cyphal 1
	bench/compile build/cyphal 1
	bench/reader
	bench/run --short build/count
	bench/table
