# Installs the tools, which are programs in Python, the Perl module RRDs, and the library for programs in C that record.
# The Makefile at the top includes this file.
#
#     make record                            links out/librrdi-record.so, if the C library is there
TOOLS = $(notdir $(wildcard tools/rrdi-*))
UNIT_NAMES = $(notdir $(wildcard tools/systemd/*.service tools/systemd/*.socket tools/systemd/*.timer))
BUILD ?= out
RECORDER = $(BUILD)/librrdi-record.so
PRIVATE = $(DESTDIR)$(PREFIX)/lib/rrdi

install: install-tools

uninstall: uninstall-tools

record: $(RECORDER)

# RRDtool's functions over librrdi. The names of librrdi itself can't be seen.
$(RECORDER): librrd/record.c include/rrdi.h $(BUILD)/librrdi.a
	$(CC) -std=c11 -O2 -Wall -Wextra -fPIC -fvisibility=hidden -shared -s -o $@ -Iinclude \
		-Wl,--exclude-libs,ALL -Wl,-z,relro,-z,now librrd/record.c $(BUILD)/librrdi.a

# Each name on the PATH is a link into the shared folder, where the package is. So are the completions of zsh and fish,
# which ask bash's.
install-tools: $(if $(HAS_LIBRARY),$(RECORDER)) install-directories
	install -d "$(SHARED)/tools/completion" "$(SHARED)/perl"
	install -m 755 tools/rrdi-* "$(SHARED)/tools"
	install -m 755 tools/completion/offers "$(SHARED)/tools/completion"
	install -m 644 tools/completion/_rrdi tools/completion/rrdi.fish "$(SHARED)/tools/completion"
	ln -sfnr "$(SHARED)/tools/completion/_rrdi" "$(COMPLETIONS_OF_ZSH)/_rrdi"
	for name in rrdi $(TOOLS); do \
		ln -sfnr "$(SHARED)/tools/completion/rrdi.fish" "$(COMPLETIONS_OF_FISH)/$$name.fish"; \
	done
	for unit in $(UNIT_NAMES); do \
		sed 's|@PREFIX@|$(PREFIX)|g' tools/systemd/$$unit > "$(UNITS)/$$unit" && chmod 644 "$(UNITS)/$$unit" || exit 1; \
	done
	install -m 644 tools/systemd/rrdi.sysusers "$(ACCOUNTS)/rrdi.conf"
	install -m 644 tools/systemd/rrdi.tmpfiles "$(FOLDERS)/rrdi.conf"
	install -m 644 perl/RRDs.pm "$(SHARED)/perl"
	@for tool in $(TOOLS); do \
		ln -sf ../share/rrdi/tools/$$tool "$(BINARIES)/$$tool" && \
		$(call manual,docs/$$tool.1) > "$(MANUALS)/$$tool.1.gz" && \
		chmod 644 "$(MANUALS)/$$tool.1.gz" && \
		install -m 644 examples/rrdi-tools.bash "$(COMPLETIONS)/$$tool" || exit 1; \
	done
	$(if $(HAS_LIBRARY),install -m 644 $(RECORDER) "$(PRIVATE)")

uninstall-tools:
	rm -f $(TOOLS:%="$(BINARIES)/%") $(TOOLS:%="$(MANUALS)/%.1.gz") $(TOOLS:%="$(COMPLETIONS)/%")
	rm -f "$(COMPLETIONS_OF_ZSH)/_rrdi" "$(COMPLETIONS_OF_FISH)/rrdi.fish" $(TOOLS:%="$(COMPLETIONS_OF_FISH)/%.fish")
	rm -f $(UNIT_NAMES:%="$(UNITS)/%") "$(ACCOUNTS)/rrdi.conf" "$(FOLDERS)/rrdi.conf"
	rm -f "$(PRIVATE)/_rrdi.abi3.so" "$(PRIVATE)/librrdi-record.so"

.PHONY: record install-tools uninstall-tools

# The tools write no bytecode, so that nobody's run changes an installation. Compiling takes as long as all the rest of a
# call, so an installation has the bytecode from the beginning; packages get it when they are installed.
install: bytecode

bytecode: install-program install-tools
	-@$(if $(DESTDIR),,umask 022; python3 -m compileall -q "$(SHARED)/python")

.PHONY: bytecode
