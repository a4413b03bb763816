# make                 proves and builds the two programs, caladan_sim and caladan_view, and says how far it is
# make NAME            one of them, or caladan_c, the C library
# make test            tests everything that needs no proof, in minutes; needs the kit, and nothing proved
# make recheck         proves again what changed since the last time, in minutes; CRATE=.. only these and those below
# make check           the gate: files and examples, then every proof, and what the proved programs say
# make prove CRATE=..  proves one crate with all that it stands on
# make needs           installs the Debian packages that make test and make check use, as root; else lists them
# make files           docs/FILES.md, a list of every file with what it is for
# make promises        docs/CLAUSES.md, a list of every public function with its clauses
# make wrong_bodies    docs/WRONG_BODIES.md, a list of every wrong body with the clause that refuses it
# make examples        docs/EXAMPLES.md, a list of every example with what it shows
# make rows            docs/ROWS.md, a list of every worked row with what it shows and where the gate runs it
# make install PREFIX=/usr/local      programs, caladan_lab, C library, headers, pkg-config, manual pages, completions
# make install_library PREFIX=..      the C library, its headers, files for pkg-config and CMake, and the package caladan
# make dist            a release in out/release: packages, a prefix, the sources, and PROOF of what the gate keeps
# What is proved is kept in crates/*/out, so make goes on where it was ended.
PREFIX ?= /usr/local
share = $(PREFIX)/share
programs = caladan_sim caladan_view
scripts = caladan_lab caladan_draw
archive = crates/caladan_c/out/libcaladan_c.a

.PHONY: all $(programs) caladan_c check dist files install install_library needs promises prove recheck test wrong_bodies

all: $(programs)

# One at a time: they stand on the same crates.
.NOTPARALLEL:

$(programs) caladan_c:
	tools/prove $@

test:
	tools/test

recheck:
	tools/recheck $(CRATE)

check:
	.ci/run

prove:
	@[ -n "$(CRATE)" ] || { echo "make prove CRATE=..: a crate of crates.txt, as CRATE=cal_policy" >&2; exit 2; }
	tools/prove $(CRATE)

needs:
	tools/needs

files:
	tools/docs --files > docs/FILES.md

promises:
	tools/clauses > docs/CLAUSES.md

wrong_bodies:
	tools/wrong_bodies --page > docs/WRONG_BODIES.md

.PHONY: examples
examples:
	tools/docs --examples > docs/EXAMPLES.md

.PHONY: rows
rows:
	tools/rows --page > docs/ROWS.md

dist: $(programs) caladan_c
	tools/make_release

install: $(programs) caladan_c
	tools/install_c_library $(PREFIX)
	mkdir -p $(PREFIX)/bin
	for each in $(programs); do install -m 755 crates/$$each/out/$$each $(PREFIX)/bin || exit; done
	install -m 755 $(scripts) $(PREFIX)/bin
	tools/manual $(share) $(addprefix $(PREFIX)/bin/,$(programs) $(if $(wildcard /usr/bin/python3),$(scripts)))
	tools/doc_pages $(share)/man

install_library: $(archive)
	CALADAN_ARCHIVE=$(archive) tools/install_c_library $(PREFIX)

$(archive):
	tools/prove caladan_c
