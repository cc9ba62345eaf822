# make install: the programs, proved, and their manual pages, below $(DESTDIR)$(PREFIX). One that isn't built is proved and
# built first, in an hour or two of processor time. `stackjudge` is a script over its program, which makes pages by python3.
# The C library has a Makefile of its own, in clients/.
PREFIX = /usr/local
DESTDIR =
BINDIR = $(PREFIX)/bin
PARTDIR = $(PREFIX)/libexec/saddlemug
MANDIR = $(PREFIX)/share/man/man1
VERSION = $(shell sed -n '/^\#\# \([0-9][0-9.]*\).*/{s//\1/p;q}' CHANGELOG.md)
INSTALL = install

stackrun = launcher/help.txt
stackjudge = launcher/judge_help.txt
nbd_disk = launcher/disk_help.txt
PROGRAMS = stackrun stackjudge nbd_disk
BUILT = $(foreach it,$(PROGRAMS),crates/$(it)/out/$(it))
PAGES = $(PROGRAMS:%=launcher/out/%.1)

all: $(BUILT) $(PAGES)

$(BUILT):
	./$(notdir $@) build

launcher/out/%.1: launcher/man_page.sh launcher/help.txt launcher/judge_help.txt launcher/disk_help.txt CHANGELOG.md
	mkdir -p launcher/out
	launcher/man_page.sh $* $($*) $(VERSION) > $@.part
	mv $@.part $@

install: all
	$(INSTALL) -d $(DESTDIR)$(BINDIR) $(DESTDIR)$(PARTDIR) $(DESTDIR)$(MANDIR)
	$(INSTALL) -m 755 crates/stackrun/out/stackrun crates/nbd_disk/out/nbd_disk $(DESTDIR)$(BINDIR)
	$(INSTALL) -m 755 launcher/installed_judge $(DESTDIR)$(BINDIR)/stackjudge
	$(INSTALL) -m 755 crates/stackjudge/out/stackjudge clients/run_page/run_page $(DESTDIR)$(PARTDIR)
	$(INSTALL) -m 644 launcher/page.sh clients/run_page/template.html $(DESTDIR)$(PARTDIR)
	$(INSTALL) -m 644 $(PAGES) $(DESTDIR)$(MANDIR)

uninstall:
	rm -f $(PROGRAMS:%=$(DESTDIR)$(BINDIR)/%) $(PROGRAMS:%=$(DESTDIR)$(MANDIR)/%.1)
	rm -rf $(DESTDIR)$(PARTDIR)

.PHONY: all install uninstall
