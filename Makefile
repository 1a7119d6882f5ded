# make check FILE=path   checks a certificate (examples/infeasible.vipr without FILE), with the program that was built here; if none
#                        was, with that of release/, if it was proved from the sources that stand here
# make test              proves everything, and runs the tests
# make build             proves and builds the program, crates/vipr/out/vipr, and says how far it is
# make install PREFIX=.. installs the program that make check uses, with its man page, completions and pages (/usr/local)
# make uninstall PREFIX=.. removes what make install put there, and nothing else
# make lib               the library for C: libvipr.a and a shared one in crates/vipr_c/out
# make install-lib PREFIX=.. installs it, or that of release/, with include/vipr.h and vipr.pc; make uninstall-lib removes it
# make dist              one archive of program, libraries, man page, completions and pages, which needs no kit, and one of the
#                        conformance cases: dist/
# make release           puts that archive and the Python package's wheel into release/, for this version
# make house             checks the repository's text: laws, names, lengths, the tables and pages made from the files
# make wrong             tries more wrong versions of the code, which the prover has to refuse (hours), CRATES=NAME those of one crate
# make wrong-definitions tries wrong definitions, which a law has to refuse (minutes)
# make bench             times the program over certificates that a script makes, beside wc -w and cat
# make rocq              proves the theorem in a second prover, Rocq, and builds its checker, rocq/vipr-rocq
# make theorem FILE=path OUT=path.v  writes a certificate as a theorem of Rocq, and has Rocq prove it (PROFILE=2 by that profile)
# make help              prints these lines
# make statement         writes anew what is made from the sources: docs/STATEMENT.md, the tables of docs/dev/CONTRACTS.md, the crate
#                        graph, the man page and the completions
RT ?= rt
PYTHON ?= python3
FILE ?= examples/infeasible.vipr
OUT ?= rocq/out/certificate.v
PROFILE ?= 1
PROGRAM = crates/vipr/out/vipr

# names of the user's reach the shell by the environment, as they are: neither make nor the shell runs what is in one
PREFIX ?= /usr/local
override export RT := $(value RT)
override export FILE := $(value FILE)
override export OUT := $(value OUT)
override export PROFILE := $(value PROFILE)
override export CRATES := $(value CRATES)
override export PREFIX := $(value PREFIX)
override export DESTDIR := $(value DESTDIR)
ifeq ($(origin LIBDIR),undefined)
LIBDIR := $(PREFIX)/lib
endif
# (LIBDIR itself is not handed on: a make below this one has its own PREFIX)
override LIBDIR := $(value LIBDIR)
override export LIBRARY_FOLDER := $(LIBDIR)
override export BIN := $(DESTDIR)$(PREFIX)/bin
override export SHARE := $(DESTDIR)$(PREFIX)/share
override export DOC := $(SHARE)/doc/vipr
override export INCLUDE := $(DESTDIR)$(PREFIX)/include
override export LIB := $(DESTDIR)$(LIBDIR)
# the lists of what is installed, by which it is removed: tools/installed.sh writes them, with these folders
PROGRAM_LIST = share/doc/vipr/INSTALLED
LIBRARY_LIST = lib/cmake/vipr/INSTALLED
# what is installed to be read: the pages for users, and what they link to; docs/dev stays in the repository
PAGES = README.md CHANGELOG.md LICENSE include/vipr.h \
	$(wildcard docs/*.md docs/*.svg) \
	$(addprefix conformance/,README.md CHANGELOG.md LICENSE-CASES sentences.tsv schema.json) \
	$(wildcard examples/*.* examples/*/*.* examples/rust/src/*.rs examples/rust/src/bin/*.rs)
PROGRAM_FILES = bin/vipr share/man/man1/vipr.1 share/bash-completion/completions/vipr \
	share/zsh/site-functions/_vipr share/fish/vendor_completions.d/vipr.fish $(addprefix share/doc/vipr/,$(PAGES))

# the library for C: its version is the program's
VERSION = $(shell sed -n 's/.*\.version("\(.*\)").*/\1/p' crates/vipr_command/src/args.rt)
MADE = crates/vipr_c/out
SHARED = libvipr.so.$(VERSION)
SONAME = libvipr.so.$(firstword $(subst ., ,$(VERSION)))
LIBRARY_FILES = include/vipr.h lib/libvipr.a lib/libvipr.so lib/$(SONAME) lib/$(SHARED) lib/pkgconfig/vipr.pc \
	lib/cmake/vipr/vipr-config.cmake lib/cmake/vipr/vipr-config-version.cmake
# vipr.pc can't name every folder, and pkg-config can't read every name
IS_PLAIN = case "$$PREFIX$$LIBRARY_FOLDER" in *[!A-Za-z0-9/._+,@%=:~-]*) \
	echo "PREFIX and LIBDIR of the library can't have spaces, quotes or other special characters"; exit 1;; esac

.PHONY: help check test build install uninstall lib install-lib uninstall-lib dist release house statement wrong wrong-definitions bench rocq theorem

# what the program is made from: it is built anew if one of these is newer
SOURCES = crates.txt $(shell find crates -name out -prune -o \( -name '*.rt' -o -name '*.antt' \) -print)

build:
	@$(PYTHON) tools/build.py && touch $(PROGRAM)

$(PROGRAM): $(SOURCES)
	@$(PYTHON) tools/build.py && touch $@

help:
	@sed -n '/^#/!q; s/^# //p' Makefile

# check, install and install-lib use only what was proved: tools/proved.sh finds it, here or in release/
check: $(wildcard $(PROGRAM))
	@program=$$(sh tools/proved.sh program $(PROGRAM)) && "$$program" check -- "$$FILE"

test:
	@$(PYTHON) tests/tools.py
	@$(PYTHON) tests/all.py

install: $(wildcard $(PROGRAM))
	@program=$$(sh tools/proved.sh program $(PROGRAM)) && install -D -T -m 755 "$$program" "$$BIN/vipr"
	@install -D -m 644 man/vipr.1 "$$SHARE/man/man1/vipr.1"
	@install -D -m 644 completions/vipr.bash "$$SHARE/bash-completion/completions/vipr"
	@install -D -m 644 completions/_vipr "$$SHARE/zsh/site-functions/_vipr"
	@install -D -m 644 completions/vipr.fish "$$SHARE/fish/vendor_completions.d/vipr.fish"
	@for page in $(PAGES); do install -D -m 644 "$$page" "$$DOC/$$page" || exit 1; done
	@sh tools/installed.sh list $(PROGRAM_LIST) $(PROGRAM_FILES)
	@printf '%s\n' "vipr is installed in $$BIN, and its pages in $$DOC"
	@case "$$PREFIX" in /usr|/usr/local) ;; *) \
		printf '%s\n' "for zsh, in ~/.zshrc before compinit: fpath+=(\"$$PREFIX/share/zsh/site-functions\")";; esac

uninstall:
	@sh tools/installed.sh remove $(PROGRAM_LIST)

$(MADE)/libvipr.a: $(SOURCES) include/vipr.map tools/make_library.py
	@$(PYTHON) tools/make_library.py $(VERSION) $(MADE)

lib:
	@$(PYTHON) tools/make_library.py $(VERSION) $(MADE)
	@echo "libvipr.a and $(SHARED) are in $(MADE)"

install-lib: $(wildcard $(MADE)/libvipr.a)
	@$(IS_PLAIN)
	@folder=$$(sh tools/proved.sh library $(MADE)) && install -D -m 644 "$$folder/libvipr.a" "$$LIB/libvipr.a" && \
		install -D -m 755 "$$folder/$(SHARED)" "$$LIB/$(SHARED)"
	@install -D -m 644 include/vipr.h "$$INCLUDE/vipr.h"
	@ln -sf $(SHARED) "$$LIB/$(SONAME)"
	@ln -sf $(SONAME) "$$LIB/libvipr.so"
	@install -d "$$LIB/pkgconfig"
	@sed "s|@PREFIX@|$$PREFIX|; s|@LIBDIR@|$$LIBRARY_FOLDER|; s|@VERSION@|$(VERSION)|" include/vipr.pc.in > "$$LIB/pkgconfig/vipr.pc"
	@chmod 644 "$$LIB/pkgconfig/vipr.pc"
	@install -D -m 644 include/vipr-config.cmake "$$LIB/cmake/vipr/vipr-config.cmake"
	@printf '%s\n' 'set(PACKAGE_VERSION $(VERSION))' 'if(NOT PACKAGE_FIND_VERSION VERSION_GREATER PACKAGE_VERSION)' \
		'  set(PACKAGE_VERSION_COMPATIBLE TRUE)' 'endif()' > "$$LIB/cmake/vipr/vipr-config-version.cmake"
	@sh tools/installed.sh list $(LIBRARY_LIST) $(LIBRARY_FILES)
	@printf '%s\n' "the library is installed in $$LIB"

uninstall-lib:
	@$(IS_PLAIN)
	@sh tools/installed.sh remove $(LIBRARY_LIST)

dist: $(PROGRAM) $(MADE)/libvipr.a
	@sh tools/proved.sh built $(PROGRAM) $(MADE)
	@$(PYTHON) tools/dist.py $(VERSION)

release: $(PROGRAM) $(MADE)/libvipr.a
	@sh tools/proved.sh built $(PROGRAM) $(MADE)
	@$(PYTHON) tools/release.py $(VERSION)

house:
	@$(PYTHON) tests/house.py

statement: build
	@$(PYTHON) tools/write_pages.py

wrong: build
	@$(PYTHON) tools/wrong.py $$CRATES

wrong-definitions:
	@$(PYTHON) tools/wrong_definitions.py

bench: $(PROGRAM)
	@$(PYTHON) bench/measure.py

rocq:
	@$(MAKE) --no-print-directory -C rocq

theorem:
	@MAKEFLAGS= $(MAKE) -s -C rocq theorem
	@mkdir -p rocq/out
	@$(PYTHON) rocq/theorem.py --profile "$$PROFILE" -- "$$FILE" "$$OUT"
	@$(PYTHON) rocq/same_bytes.py "$$OUT" "$$FILE"
