# Proves, builds, tries and installs the program, the command around it, its pages of the manual and completion.
#
#   make                           sees to Debian's packages, proves and builds the program, and shows a ring that it finds
#   make look                      shows the ring before anything is proved, in two minutes
#   make test                      everything but the proofs, with the program: ten minutes
#   make core                      proves and builds the program, where it isn't built
#   make install                   to /usr/local
#   make install PREFIX=/usr DESTDIR=/tmp/root
#   make install CORE=PROGRAM      with a program that was built elsewhere
#   make uninstall
#   make check                     examples and workbench, with the program
#   make deb                       a Debian package, in build/, with its checksum
#   make tar                       an archive with a script that installs it, in build/, with its checksum

PREFIX = /usr/local
DESTDIR =
CORE = crates/sync_main/out/sync_main
PYTHON = /usr/bin/python3

# Where Debian's own Python finds packages: its own below /usr, those of a machine below /usr/local.
ifeq ($(PREFIX),/usr)
MODULES = lib/python3/dist-packages
else
MODULES = lib/python3.11/dist-packages
endif

ROOT = $(DESTDIR)$(PREFIX)
PAGES = $(wildcard man/*.[15])
INSTALLED = bin/murdjohe bin/murdjohe-core lib/murdjohe $(MODULES)/murdjohe share/murdjohe share/doc/murdjohe \
	$(foreach page,$(PAGES),share/man/man$(subst .,,$(suffix $(page)))/$(notdir $(page))) \
	$(foreach page,$(shell sh packaging/man_links --list),share/man/man1/$(page)) \
	share/bash-completion/completions/murdjohe share/zsh/vendor-completions/_murdjohe \
	share/fish/vendor_completions.d/murdjohe.fish

.PHONY: all needed core look test install uninstall check deb tar clean

all: needed core
	sh packaging/first_look $(CORE)

needed:
	sh packaging/needed

core: $(CORE)

look:
	sh packaging/look

test: $(CORE)
	sh packaging/needed --tests
	sh packaging/test_all $(CORE)

crates/sync_main/out/sync_main:
	$(PYTHON) packaging/build_core

install: $(CORE)
	install -d $(ROOT)/bin $(ROOT)/lib/murdjohe $(ROOT)/share/murdjohe $(ROOT)/share/doc/murdjohe
	install -m 755 $(CORE) $(ROOT)/lib/murdjohe/murdjohe-core
	ln -sf ../lib/murdjohe/murdjohe-core $(ROOT)/bin/murdjohe-core
	install -d $(ROOT)/$(MODULES)/murdjohe
	ln -sf ../../../murdjohe/murdjohe-core $(ROOT)/$(MODULES)/murdjohe/murdjohe-core
	cd workbench/src && find murdjohe -name '*.py' -o -name py.typed -o -path '*/page/*.*' | xargs -I {} install -D -m 644 {} $(ROOT)/$(MODULES)/{}
	install -m 644 docs/refusals.toml $(ROOT)/$(MODULES)/murdjohe/refusals.toml
	sed 's|^PACKAGE = "src"|PACKAGE = "../$(MODULES)"|' workbench/murdjohe > $(ROOT)/bin/murdjohe
	chmod 755 $(ROOT)/bin/murdjohe
	for page in $(PAGES); do install -D -m 644 $$page $(ROOT)/share/man/man$${page##*.}/$${page##*/}; done
	sh packaging/man_links $(ROOT)/share/man/man1
	install -m 644 docs/plan.schema.json $(ROOT)/share/murdjohe/plan.schema.json
	install -m 644 docs/use/formats.md docs/use/guide.md docs/use/glossary.md $(ROOT)/share/doc/murdjohe/
	sh packaging/completions $(ROOT)/share
	test -n "$(DESTDIR)" || $(PYTHON) -m compileall -q $(ROOT)/$(MODULES)/murdjohe

uninstall:
	cd $(ROOT) && rm -rf $(INSTALLED)

check: $(CORE)
	sh examples/run $(CORE)
	workbench/check $(CORE)

deb: $(CORE)
	sh packaging/deb $(CORE) build
	cd build && sha256sum murdjohe_*.deb > SHA256SUMS.deb

tar: $(CORE)
	sh packaging/tar $(CORE) build
	cd build && sha256sum murdjohe-*.tar.gz > SHA256SUMS.tar

clean:
	rm -rf build
