# Builds, tries, installs and packages rrdi. `make help` lists the targets; docs/install.md has more.
#
# A make that was stopped goes on where it was when it is repeated: what was proved is kept in crates/*/out.
#
# PROGRAM=file names another program than the one that `make` builds, and ARCHIVE=file another archive of the library.

PREFIX = /usr/local
DESTDIR =
PROGRAM = crates/rrdi/out/rrdi
ARCHIVE = out/librrdi_c.a
# Debian's own Python, because another one may lack pytest.
PYTHON3 = /usr/bin/python3
# Where the library is linked, and what of C the kit's code calls: malloc, realloc, free and errno.
BUILD = out
KIT = $(dir $(realpath $(shell command -v rt)))..
OF_KIT = $(KIT)/c/libos_c.a $(KIT)/c/liblibc_c.a
EXPORTS = rrdi_run rrdi_batch rrdi_run_file rrdi_batch_file rrdi_open rrdi_run_open rrdi_batch_open rrdi_update_open \
	rrdi_fetch_open rrdi_close rrdi_create_new rrdi_update_many rrdi_strerror rrdi_libversion \
	rrdi_db_open rrdi_db_update rrdi_db_update_many rrdi_db_fetch rrdi_db_last rrdi_db_error rrdi_db_close
# The part of the library that is plain C, over the functions of rrdi_c.
PLAIN = $(wildcard library/c/*.c)
COMPILE_PLAIN = $(CC) -std=gnu11 -O2 -Wall -Wextra -fPIC -Iinclude $(PLAIN)
# The functions of the headers alone, which have a manual page too.
INLINE = rrdi_version rrdi_words rrdi_whole rrdi_count rrdi_millionths rrdi_double rrdi_to_double
# Where below PREFIX the library goes; Debian has lib/x86_64-linux-gnu.
LIBDIR = lib
LIBRARIES = $(DESTDIR)$(PREFIX)/$(LIBDIR)
HEADERS = $(DESTDIR)$(PREFIX)/include
MANUALS_OF_C = $(DESTDIR)$(PREFIX)/share/man/man3
BINARIES = $(DESTDIR)$(PREFIX)/bin
MANUALS = $(DESTDIR)$(PREFIX)/share/man/man1
COMPLETIONS = $(DESTDIR)$(PREFIX)/share/bash-completion/completions
COMPLETIONS_OF_FISH = $(DESTDIR)$(PREFIX)/share/fish/vendor_completions.d
# Where below PREFIX zsh looks for completions; for packages of Debian it is share/zsh/vendor-completions.
ZSHDIR = share/zsh/site-functions
COMPLETIONS_OF_ZSH = $(DESTDIR)$(PREFIX)/$(ZSHDIR)
UNITS = $(DESTDIR)$(PREFIX)/lib/systemd/system
ACCOUNTS = $(DESTDIR)$(PREFIX)/lib/sysusers.d
FOLDERS = $(DESTDIR)$(PREFIX)/lib/tmpfiles.d
SHARED = $(DESTDIR)$(PREFIX)/share/rrdi
PYTHON = $(SHARED)/python
# Where below PREFIX the link to the Python package goes: Debian's python3 looks there if PREFIX is /usr.
PYTHONDIR = lib/python3/dist-packages
MODULES = $(DESTDIR)$(PREFIX)/$(PYTHONDIR)

VERSION := $(shell cat VERSION)

# Not empty if the library is to be installed: its archive was built, or was passed.
HAS_LIBRARY = $(if $(filter command,$(firstword $(origin ARCHIVE))),$(ARCHIVE),$(wildcard $(ARCHIVE)))

# The line after ## is what `make help` says of a target.
all: ## proves and builds the program, and runs a first session (half an hour the first time, 8 GB of disk)
	cd crates/rrdi && rt run -- batch < ../../docs/first-session.txt

help: ## prints this list
	@sed -n 's/^\([a-z]*\):.*## \(.*\)/make \1\t\2/p' $(MAKEFILE_LIST) | expand -t 18

build: ## proves and builds the program
	cd crates/rrdi && rt run -- batch < /dev/null

library: ## proves and builds the C library too: out/librrdi.a, out/librrdi.so.0 (needs cc and binutils)
	library/build
	$(MAKE) --no-print-directory link-library

prove: ## proves every crate, those of the tests too
	rt all check

test: ## tries the program and the library that are built, the tools, the packages and the pages (minutes)
	$(ALONE) $(PYTHON3) -B -m pytest -n auto --lacking $(OPTIONS)

check: ## runs the full check: every proof, planted bug and test (over an hour, 16 GB of memory, 15 GB of disk)
	@$(ALONE) $(PYTHON3) -B scripts/check.py $(OPTIONS)

bench: ## measures rrdi beside RRDtool, librrd, rrdcached and whisper (half an hour; OPTIONS="update c" takes a part)
	benches/bench.py --program=$(PROGRAM) --library=$(BUILD)/librrdi.so.0 $(OPTIONS)

clean: ## removes what was proved and built
	rm -rf crates/*/out $(BUILD)

# What tries an installation calls make too, and that one has nothing to do with this one.
ALONE = env -u MAKEFLAGS -u MFLAGS -u MAKELEVEL

# Other names than those of rrdi.h can't be seen of either library, so they can't clash with those of another one.
link-library: $(BUILD)/librrdi.so.0 $(BUILD)/librrdi.a extension

# An archive that was built elsewhere needs the kit too.
HAS_KIT = for file in $(OF_KIT); do [ -e "$$file" ] || \
	{ echo "make: $$file not found; the library is linked with the Rattle kit, so put its rt on the PATH" >&2; exit 1; }; done

# librrdi.so is a copy and no link, because rt refuses links in the repository.
$(BUILD)/librrdi.so.0: $(ARCHIVE) $(PLAIN) library/c/internal.h include/rrdi.h include/librrdi.map
	@$(HAS_KIT)
	mkdir -p $(BUILD)
	$(COMPILE_PLAIN) -shared -o $@ -Wl,-soname,librrdi.so.0 -Wl,--version-script=include/librrdi.map -Wl,--no-undefined \
		-Wl,-z,relro,-z,now -Wl,--gc-sections -Wl,--as-needed -Wl,-Bsymbolic-functions \
		-Wl,--whole-archive $(ARCHIVE) -Wl,--no-whole-archive $(OF_KIT)
	cp $@ $(BUILD)/librrdi.so

$(BUILD)/librrdi.a: $(ARCHIVE) $(PLAIN) library/c/internal.h include/rrdi.h
	@$(HAS_KIT)
	mkdir -p $(BUILD)
	$(COMPILE_PLAIN) -r -nostdlib -o $(BUILD)/plain.o
	$(LD) -r -o $(BUILD)/librrdi.o $(BUILD)/plain.o --whole-archive $(ARCHIVE) --no-whole-archive $(OF_KIT)
	objcopy $(EXPORTS:%=--keep-global-symbol=%) $(BUILD)/librrdi.o
	rm -f $@
	$(AR) rcs $@ $(BUILD)/librrdi.o
	rm $(BUILD)/librrdi.o $(BUILD)/plain.o

# What Python calls the library by, if Python's headers are there: otherwise ctypes takes its place. One file is for each Python
# from 3.8 on.
EXTENSION = $(BUILD)/_rrdi.abi3.so
extension:
	@headers=$$($(PYTHON3) -c 'import sysconfig; print(sysconfig.get_path("include"))'); \
	if [ -e "$$headers/Python.h" ]; then $(MAKE) --no-print-directory HEADERS_OF_PYTHON="$$headers" $(EXTENSION); \
	else echo "make: no Python.h, so import rrdi is slower; python3-dev has it" >&2; fi

$(EXTENSION): python/rrdi/_rrdi.c python/rrdi/_numbers.h include/rrdi.h
	mkdir -p $(BUILD)
	$(CC) -std=c11 -O2 -Wall -Wextra -fPIC -fvisibility=hidden -shared -s -o $@ -I"$(HEADERS_OF_PYTHON)" -Iinclude \
		-Wl,-z,relro,-z,now python/rrdi/_rrdi.c

$(ARCHIVE):
	@echo "make: $@ not found; run make library first, or pass ARCHIVE=path" >&2
	@false

# What is installed is the program that is there: it isn't built by install, which may run as another user.
$(PROGRAM):
	@echo "make: $@ not found; run make first, or pass PROGRAM=path" >&2
	@false

# The directories of an installation. install notes in share/rrdi/directories which of them were not there, each without
# DESTDIR, and uninstall removes these if they are empty. A package has no use for that file.
DIRECTORIES = "$(BINARIES)" "$(MANUALS)" "$(COMPLETIONS)" "$(COMPLETIONS_OF_ZSH)" "$(COMPLETIONS_OF_FISH)" "$(MODULES)" \
	"$(UNITS)" "$(ACCOUNTS)" "$(FOLDERS)" "$(SHARED)" $(if $(HAS_LIBRARY),"$(HEADERS)" "$(LIBRARIES)/pkgconfig" "$(MANUALS_OF_C)" "$(PRIVATE)")
NOTED = $(SHARED)/directories

# Programs find a library that was installed only after ldconfig has read its directory; that takes root, and no DESTDIR.
UPDATE_LIBRARIES = $(if $(DESTDIR),,if [ "$$(id -u)" = 0 ]; then $(LDCONFIG); fi)
LDCONFIG = ldconfig

# $(call manual,PAGE): a manual page as it is installed, where docs and examples are in other directories.
manual = sed 's,\(^\|[ <(]\)\(docs\|examples\)/,\1$(PREFIX)/share/rrdi/\2/,g' $(1) | gzip -9n

# What those have who have the repository: the installed pages name it without a link.
OF_REPOSITORY = ARCHITECTURE|CONTRIBUTING|DECISIONS|proofs|results|library/c|tests/README
PAGES = CHANGELOG.md README.md $(filter-out $(patsubst %,docs/%.md,$(subst |, ,$(OF_REPOSITORY))),$(wildcard docs/*.md))
# $(call page,PAGE): a page as it is installed.
page = sed -zE 's,\[([^][]*)\]\((\.\./|docs/)?($(OF_REPOSITORY))(\.md[^)]*)?\),\1,g' $(1)
# A script that only tests use.
OF_TESTS = examples/rrdi-safely

# With PREFIX=/usr/local, below DESTDIR if that is given.
install: install-program $(if $(HAS_LIBRARY),install-library) ## installs what was built, below PREFIX=/usr/local
	@$(if $(HAS_LIBRARY),,echo "make: $(ARCHIVE) not found, so the C library is not installed; make library builds it" >&2)

install-directories:
	@install -d "$(DESTDIR)/"
	@made=$$(for directory in $(DIRECTORIES); do \
		while [ ! -d "$$directory" ]; do echo "$${directory#"$(DESTDIR)"}"; directory=$$(dirname "$$directory"); done; \
	done) && install -d $(DIRECTORIES) && { [ -z "$$made" ] || echo "$$made" >> "$(NOTED)"; }
	@if [ -e "$(NOTED)" ]; then LC_ALL=C sort -u -o "$(NOTED)" "$(NOTED)" && chmod 644 "$(NOTED)"; fi

install-library: link-library install-directories
	install -m 644 $(BUILD)/librrdi.so.0 $(BUILD)/librrdi.a "$(LIBRARIES)"
	if [ -e $(EXTENSION) ]; then install -m 644 $(EXTENSION) "$(PRIVATE)"; fi
	ln -sf librrdi.so.0 "$(LIBRARIES)/librrdi.so"
	install -m 644 include/rrdi.h "$(HEADERS)"
	rm -f "$(HEADERS)/rrdi_create.h"
	sed -e 's|@PREFIX@|$(PREFIX)|' -e 's|@LIBDIR@|$(LIBDIR)|' -e 's|@VERSION@|$(VERSION)|' include/rrdi.pc.in \
		> "$(LIBRARIES)/pkgconfig/rrdi.pc"
	chmod 644 "$(LIBRARIES)/pkgconfig/rrdi.pc"
	rm -f "$(MANUALS_OF_C)/rrdi.3" $(EXPORTS:%="$(MANUALS_OF_C)/%.3")
	$(call manual,docs/rrdi.3) > "$(MANUALS_OF_C)/rrdi.3.gz"
	chmod 644 "$(MANUALS_OF_C)/rrdi.3.gz"
	for name in $(EXPORTS) $(INLINE); do ln -sf rrdi.3.gz "$(MANUALS_OF_C)/$$name.3.gz"; done
	-@$(UPDATE_LIBRARIES)

# Earlier versions installed the pages of the program and the library without compression, and `man` would show those.
install-program: $(PROGRAM) install-directories
	install -d "$(SHARED)/docs" "$(SHARED)/examples"
	install -m 755 "$(PROGRAM)" "$(BINARIES)/rrdi"
	rm -f "$(MANUALS)/rrdi.1"
	$(call manual,docs/rrdi.1) > "$(MANUALS)/rrdi.1.gz"
	chmod 644 "$(MANUALS)/rrdi.1.gz"
	install -m 644 examples/rrdi.bash "$(COMPLETIONS)/rrdi"
	install -m 644 LICENSE* VERSION "$(SHARED)"
	install -m 644 $(wildcard docs/*.png docs/*.svg) docs/rrdi.1 docs/rrdi.3 docs/first-session.txt "$(SHARED)/docs"
	@$(foreach file,$(PAGES),$(call page,$(file)) > "$(SHARED)/$(file)" && chmod 644 "$(SHARED)/$(file)" &&) :
	@find python/compat python/rrdi -name '*.py' | while read -r file; do \
		install -D -m 644 "$$file" "$(SHARED)/$$file" || exit 1; \
	done
	install -m 644 python/rrdi/py.typed "$(PYTHON)/rrdi"
	ln -sfnr "$(PYTHON)/rrdi" "$(MODULES)/rrdi"
	@for file in $(filter-out $(OF_TESTS),$(wildcard examples/*)); do \
		if [ -d "$$file" ]; then continue; fi; \
		if [ -x "$$file" ]; then mode=755; else mode=644; fi; \
		install -m $$mode "$$file" "$(SHARED)/examples" || exit 1; \
	done

# Not all of the directory: below a PREFIX of $HOME/.local it is the one in which a user may have databases.
OF_SHARED = docs examples perl python tools CHANGELOG.md README.md LICENSE LICENSE-APACHE LICENSE-MIT VERSION directories

uninstall: ## removes what was installed below PREFIX
	rm -f "$(BINARIES)/rrdi" "$(MANUALS)/rrdi.1" "$(MANUALS)/rrdi.1.gz" "$(COMPLETIONS)/rrdi" "$(MODULES)/rrdi"
	rm -f "$(HEADERS)/rrdi.h" "$(HEADERS)/rrdi_create.h" "$(LIBRARIES)/pkgconfig/rrdi.pc" "$(LIBRARIES)/librrdi.a" \
		"$(LIBRARIES)/librrdi.so" "$(LIBRARIES)/librrdi.so.0" "$(MANUALS_OF_C)/rrdi.3" $(EXPORTS:%="$(MANUALS_OF_C)/%.3") \
		"$(MANUALS_OF_C)/rrdi.3.gz" $(EXPORTS:%="$(MANUALS_OF_C)/%.3.gz") \
		$(INLINE:%="$(MANUALS_OF_C)/%.3.gz")
	@made=$$(LC_ALL=C sort -r "$(NOTED)" 2>/dev/null); rm -rf $(OF_SHARED:%="$(SHARED)/%"); \
	echo "$$made" | while read -r directory; do \
		[ -z "$$directory" ] || rmdir "$(DESTDIR)$$directory" 2>/dev/null || :; \
	done
	-@$(UPDATE_LIBRARIES)

# What a package or an installation takes.
built: $(PROGRAM) $(if $(HAS_LIBRARY),link-library)

deb: built ## makes packages of Debian in out/ (needs debhelper and dh-python)
	mkdir -p $(BUILD)
	DEBS="$(abspath $(BUILD))" dpkg-buildpackage -b -us -uc -tc $(if $(HAS_LIBRARY),,-Ppkg.rrdi.nolibrary) \
		--buildinfo-option=-u"$(abspath $(BUILD))" --changes-option=-u"$(abspath $(BUILD))" \
		--buildinfo-file="$(BUILD)/rrdi.buildinfo" --changes-file="$(BUILD)/rrdi.changes"

.PHONY: all help build built library prove test check bench clean link-library install install-directories install-library install-program uninstall deb

# The tools, and what Perl and C programs of RRDtool's users record by.
include tools/tools.mk
