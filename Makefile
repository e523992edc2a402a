# make            proves and builds the programs
# make install    puts programs, manual pages, completions, examples, documents and the check before a resume below DESTDIR and PREFIX
# make uninstall  removes them
# make library    proves and builds the library for C, out/libswsusp.a; make install-library installs it, its header and its manual page
# make check      tries the programs that are built, and checks the documents
# make deb        makes a Debian package of the programs that are built, in out/deb
VERSION := $(shell cat VERSION)
PREFIX ?= /usr/local
DESTDIR ?=
BINDIR ?= $(PREFIX)/bin
LIBDIR ?= $(PREFIX)/lib
INCLUDEDIR ?= $(PREFIX)/include
MANDIR ?= $(PREFIX)/share/man
DOCDIR ?= $(PREFIX)/share/doc/dirukofe
BASHDIR ?= $(PREFIX)/share/bash-completion/completions
ZSHDIR ?= $(PREFIX)/share/zsh/site-functions
FISHDIR ?= $(PREFIX)/share/fish/vendor_completions.d
INITRAMFSDIR ?= $(PREFIX)/share/initramfs-tools
DRACUTDIR ?= $(PREFIX)/lib/dracut/modules.d

SWSUSP := crates/swsusp/out/swsusp
MACHINE := crates/swsusp_machine/out/swsusp_machine
IMAGE := crates/swsusp_image/out/swsusp_image
LIBRARY := crates/swsusp_c/out/libswsusp_c.a
PROGRAMS := $(SWSUSP) $(MACHINE) $(IMAGE)
# The tools that the scripts of examples/ call.
TOOLS := tools/make_area.sh tools/make_dump.py tools/extents.py
MISSING = $(filter-out $(wildcard $(PROGRAMS)),$(PROGRAMS))

# The check before a resume, for initramfs-tools and for dracut.
HOOK := $(INITRAMFSDIR)/hooks/dirukofe
PREMOUNT := $(INITRAMFSDIR)/scripts/local-premount/dirukofe
CHECK := $(INITRAMFSDIR)/scripts/dirukofe_check
MODULE := $(DRACUTDIR)/95dirukofe

.PHONY: all library install install-initramfs install-library uninstall check deb built

all:
	cd crates/swsusp && rt run -- drill 10
	cd crates/swsusp_machine && rt run -- --help
	cd crates/swsusp_image && rt run -- --help

library:
	cd crates/swsusp_c && rt lib
	install -D -m 644 $(LIBRARY) out/libswsusp.a

built:
	@test -z "$(MISSING)" || { echo "not built: $(MISSING); 'make' proves and builds them" >&2; exit 1; }

install: built install-initramfs
	install -d $(addprefix $(DESTDIR),$(BINDIR) $(MANDIR)/man5 $(MANDIR)/man7 $(MANDIR)/man8 $(DOCDIR)/docs $(DOCDIR)/examples $(DOCDIR)/tools)
	install -d $(addprefix $(DESTDIR),$(BASHDIR) $(ZSHDIR) $(FISHDIR))
	install -m 755 $(PROGRAMS) $(DESTDIR)$(BINDIR)
	install -m 644 man/swsusp-script.5 $(DESTDIR)$(MANDIR)/man5
	install -m 644 man/swsusp-replies.7 $(DESTDIR)$(MANDIR)/man7
	install -m 644 man/swsusp.8 man/swsusp_machine.8 man/swsusp_image.8 $(DESTDIR)$(MANDIR)/man8
	install -m 644 completions/swsusp.bash $(DESTDIR)$(BASHDIR)/swsusp
	install -m 644 completions/swsusp_machine.bash $(DESTDIR)$(BASHDIR)/swsusp_machine
	install -m 644 completions/swsusp_image.bash $(DESTDIR)$(BASHDIR)/swsusp_image
	install -m 644 completions/_swsusp completions/_swsusp_machine completions/_swsusp_image $(DESTDIR)$(ZSHDIR)
	install -m 644 completions/swsusp.fish completions/swsusp_machine.fish completions/swsusp_image.fish $(DESTDIR)$(FISHDIR)
	install -m 644 README.md CHANGELOG.md VERSION $(DESTDIR)$(DOCDIR)
	install -m 644 $(wildcard docs/*) $(DESTDIR)$(DOCDIR)/docs
	install -m 644 $(filter-out %.sh,$(wildcard examples/*)) $(DESTDIR)$(DOCDIR)/examples
	install -m 755 $(filter-out %/embed_test.sh,$(filter %.sh,$(wildcard examples/*))) $(DESTDIR)$(DOCDIR)/examples
	install -m 755 $(TOOLS) $(DESTDIR)$(DOCDIR)/tools

install-initramfs:
	install -D -m 755 packaging/initramfs/hook $(DESTDIR)$(HOOK)
	install -D -m 755 packaging/initramfs/local-premount $(DESTDIR)$(PREMOUNT)
	install -D -m 755 packaging/initramfs/check.sh $(DESTDIR)$(CHECK)
	install -D -m 755 -t $(DESTDIR)$(MODULE) packaging/initramfs/check.sh packaging/initramfs/dracut/module-setup.sh \
	    packaging/initramfs/dracut/check-resume.sh
	install -m 644 packaging/initramfs/dracut/resume.conf $(DESTDIR)$(MODULE)

install-library:
	@test -f $(LIBRARY) || { echo "not built: $(LIBRARY); 'make library' proves and builds it" >&2; exit 1; }
	install -D -m 644 $(LIBRARY) $(DESTDIR)$(LIBDIR)/libswsusp.a
	install -D -m 644 include/swsusp.h $(DESTDIR)$(INCLUDEDIR)/swsusp.h
	install -D -m 644 man/libswsusp.3 $(DESTDIR)$(MANDIR)/man3/libswsusp.3

uninstall:
	rm -f $(DESTDIR)$(LIBDIR)/libswsusp.a $(DESTDIR)$(INCLUDEDIR)/swsusp.h $(DESTDIR)$(MANDIR)/man3/libswsusp.3
	rm -f $(addprefix $(DESTDIR)$(BINDIR)/,$(notdir $(PROGRAMS)))
	rm -f $(DESTDIR)$(MANDIR)/man5/swsusp-script.5 $(DESTDIR)$(MANDIR)/man7/swsusp-replies.7
	rm -f $(addprefix $(DESTDIR)$(MANDIR)/man8/,swsusp.8 swsusp_machine.8 swsusp_image.8)
	rm -f $(addprefix $(DESTDIR)$(BASHDIR)/,swsusp swsusp_machine swsusp_image) $(addprefix $(DESTDIR)$(ZSHDIR)/,_swsusp _swsusp_machine _swsusp_image)
	rm -f $(addprefix $(DESTDIR)$(FISHDIR)/,swsusp.fish swsusp_machine.fish swsusp_image.fish)
	rm -f $(addprefix $(DESTDIR),$(HOOK) $(PREMOUNT) $(CHECK))
	rm -rf $(DESTDIR)$(DOCDIR) $(DESTDIR)$(MODULE)

check: built
	python3 tests/run.py
	python3 tools/check_examples.py
	sh examples/story.sh | diff examples/story.out -
	python3 tools/check_promises.py
	python3 tools/check_header.py
	python3 tools/reading.py --check
	python3 tools/check_replies.py
	python3 tools/defended.py --check
	sh tools/check_completions.sh

deb: built
	sh packaging/make_deb.sh
