# Builds, installs and tests Humpelkaas.
#
#   make            the library and the command
#   make install    both in place under PREFIX (default /usr/local), behind DESTDIR if that is set
#   make test       all tests
#
# `make install` installs what was built. It builds only what is missing, so that it can run as a user who has no kit.

# The command's version is the library's too.
MANIFEST := command/Cargo.toml
VERSION = $(or $(shell sed -n 's/^version = "\(.*\)"$$/\1/p' $(MANIFEST)),$(error $(MANIFEST) names no version))

PREFIX ?= /usr/local
ifneq ($(words $(PREFIX)),1)
$(error PREFIX must be one path without spaces, not '$(PREFIX)')
endif
# A relative one would end up in the pkg-config file.
override PREFIX := $(abspath $(PREFIX))
BINDIR ?= $(PREFIX)/bin
LIBDIR ?= $(PREFIX)/lib
INCLUDEDIR ?= $(PREFIX)/include
PKGCONFIGDIR ?= $(LIBDIR)/pkgconfig
DATADIR ?= $(PREFIX)/share
MANDIR ?= $(DATADIR)/man
BASHDIR ?= $(DATADIR)/bash-completion/completions
ZSHDIR ?= $(DATADIR)/zsh/site-functions
FISHDIR ?= $(DATADIR)/fish/vendor_completions.d

INSTALL ?= install

LIBRARY := target/lib/libhumpelkaas.a
COMMAND := target/command/release/humpelkaas

.PHONY: all library command install install-library uninstall sample test clean
# The command needs the library, and rt and cargo use several cores by themselves.
.NOTPARALLEL:

all: library command

# ---- building

# Always run: rt knows what is proved already.
library:
	@tools/library

# Always run too: cargo knows what is built already.
command: library
	CARGO_TARGET_DIR='$(CURDIR)/target/command' tools/cargo build --release --manifest-path $(MANIFEST)

$(LIBRARY):
	@$(MAKE) --no-print-directory library

$(COMMAND):
	@$(MAKE) --no-print-directory command

# ---- installing

# The path $1 as a pkg-config file has it: by the variable prefix if it is under PREFIX.
under_prefix = $(patsubst $(PREFIX)/%,$${prefix}/%,$1)

install-library: $(LIBRARY)
	$(INSTALL) -d '$(DESTDIR)$(LIBDIR)' '$(DESTDIR)$(INCLUDEDIR)' '$(DESTDIR)$(PKGCONFIGDIR)'
	$(INSTALL) -m 644 $(LIBRARY) '$(DESTDIR)$(LIBDIR)/libhumpelkaas.a'
	$(INSTALL) -m 644 include/humpelkaas.h '$(DESTDIR)$(INCLUDEDIR)/humpelkaas.h'
	sed -e 's|@PREFIX@|$(PREFIX)|' -e 's|@LIBDIR@|$(call under_prefix,$(LIBDIR))|' \
	  -e 's|@INCLUDEDIR@|$(call under_prefix,$(INCLUDEDIR))|' -e 's|@VERSION@|$(VERSION)|' \
	  packaging/humpelkaas.pc.in >'$(DESTDIR)$(PKGCONFIGDIR)/humpelkaas.pc'
	chmod 644 '$(DESTDIR)$(PKGCONFIGDIR)/humpelkaas.pc'

install: install-library $(COMMAND)
	$(INSTALL) -d '$(DESTDIR)$(BINDIR)' '$(DESTDIR)$(MANDIR)/man1' \
	  '$(DESTDIR)$(BASHDIR)' '$(DESTDIR)$(ZSHDIR)' '$(DESTDIR)$(FISHDIR)'
	$(INSTALL) -m 755 $(COMMAND) '$(DESTDIR)$(BINDIR)/humpelkaas'
	$(INSTALL) -m 644 packaging/humpelkaas.1 '$(DESTDIR)$(MANDIR)/man1/humpelkaas.1'
	$(COMMAND) completions bash >'$(DESTDIR)$(BASHDIR)/humpelkaas'
	$(COMMAND) completions zsh >'$(DESTDIR)$(ZSHDIR)/_humpelkaas'
	$(COMMAND) completions fish >'$(DESTDIR)$(FISHDIR)/humpelkaas.fish'
	chmod 644 '$(DESTDIR)$(BASHDIR)/humpelkaas' '$(DESTDIR)$(ZSHDIR)/_humpelkaas' '$(DESTDIR)$(FISHDIR)/humpelkaas.fish'

# With the same variables as the installation. Folders stay.
uninstall:
	rm -f '$(DESTDIR)$(LIBDIR)/libhumpelkaas.a' '$(DESTDIR)$(INCLUDEDIR)/humpelkaas.h' \
	  '$(DESTDIR)$(PKGCONFIGDIR)/humpelkaas.pc' '$(DESTDIR)$(BINDIR)/humpelkaas' \
	  '$(DESTDIR)$(MANDIR)/man1/humpelkaas.1' '$(DESTDIR)$(BASHDIR)/humpelkaas' \
	  '$(DESTDIR)$(ZSHDIR)/_humpelkaas' '$(DESTDIR)$(FISHDIR)/humpelkaas.fish'

# ---- using, testing

# Two samples with all input files, in target/sample.
sample: all
	$(COMMAND) sample target/sample

test:
	bash .ci/run

clean:
	rm -rf target
