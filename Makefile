# make                     proves and builds the programs and the library; `rt` of the Rattle kit must be in PATH
# make check               the gate, all proofs and tests
# make install             copies what was built to PREFIX, below DESTDIR; this needs no kit
# make uninstall           removes it
# make dist                packs it into target/ for machines without the kit; it may be unpacked anywhere

PREFIX = /usr/local
DESTDIR =
VERSION := $(shell sed -n 's/.*b"bodhranhaze \([0-9.]*\)\\n".*/\1/p' crates/cli/src/lib.rt)

CRATES = report ask edit map off bench marks merge class table pack
DOCUMENTS = README.md LICENSE CHANGELOG.md $(wildcard docs/GUIDE.md docs/SCENE.md docs/C.md docs/OFFICE.md)
COMMANDS = bodhranhaze bodhranhaze-blocks
PAGES = $(notdir $(wildcard packaging/man/*))
# What examples/make.py imports.
EXACT = tests/independent/exact.py tests/independent/judge.py

TREE = $(DESTDIR)$(PREFIX)
PACK = bodhranhaze-$(VERSION)-x86_64
INSTALL = install -D -m 644

all:
	@packaging/build $(CRATES) bodhranhaze

check:
	.ci/run

install:
	@for file in $(CRATES:%=bin/%) staticlib/libbodhranhaze.a shared/libbodhranhaze.so; do \
	    [ -f target/$$file ] || { echo "make install: target/$$file is not there; make builds it" >&2; exit 1; }; \
	done
	for command in $(COMMANDS); do install -D -m 755 packaging/$$command $(TREE)/bin/$$command || exit 1; done
	for crate in $(CRATES); do install -D -m 755 target/bin/$$crate $(TREE)/libexec/bodhranhaze/$$crate || exit 1; done
	$(INSTALL) include/bodhranhaze.h $(TREE)/include/bodhranhaze.h
	$(INSTALL) target/staticlib/libbodhranhaze.a $(TREE)/lib/libbodhranhaze.a
	install -D -m 755 target/shared/libbodhranhaze.so $(TREE)/lib/libbodhranhaze.so.$(VERSION)
	ln -sf libbodhranhaze.so.$(VERSION) $(TREE)/lib/libbodhranhaze.so.1
	ln -sf libbodhranhaze.so.1 $(TREE)/lib/libbodhranhaze.so
	$(INSTALL) packaging/bodhranhaze.pc $(TREE)/lib/pkgconfig/bodhranhaze.pc
	for page in $(PAGES); do $(INSTALL) packaging/man/$$page $(TREE)/share/man/man$${page##*.}/$$page || exit 1; done
	sed -i 's/@VERSION@/$(VERSION)/' $(TREE)/lib/pkgconfig/bodhranhaze.pc $(TREE)/share/man/man?/bodhranhaze*
	$(INSTALL) packaging/completion.bash $(TREE)/share/bash-completion/completions/bodhranhaze
	for file in $(EXACT) $$(find examples -name __pycache__ -prune -o -type f -print); do \
	    $(INSTALL) $$file $(TREE)/share/bodhranhaze/$$file || exit 1; done
	for file in $(DOCUMENTS); do $(INSTALL) $$file $(TREE)/share/doc/bodhranhaze/$${file##*/} || exit 1; done

uninstall:
	rm -f $(COMMANDS:%=$(TREE)/bin/%) $(PAGES:%=$(TREE)/share/man/man?/%)
	rm -f $(TREE)/include/bodhranhaze.h $(TREE)/lib/libbodhranhaze.* $(TREE)/lib/pkgconfig/bodhranhaze.pc
	rm -f $(TREE)/share/bash-completion/completions/bodhranhaze
	rm -rf $(TREE)/libexec/bodhranhaze $(TREE)/share/bodhranhaze $(TREE)/share/doc/bodhranhaze

dist:
	rm -rf target/dist
	@$(MAKE) --no-print-directory -s install DESTDIR=target/dist PREFIX=/$(PACK)
	tar -C target/dist --sort=name --owner=0 --group=0 --numeric-owner -czf target/$(PACK).tar.gz $(PACK)
	rm -rf target/dist
	@echo target/$(PACK).tar.gz

.PHONY: all check install uninstall dist
