# The rules of the Makefiles of the programs, which name one as PROGRAM.

PREFIX = /usr/local
BINDIR = $(PREFIX)/bin
MANDIR = $(PREFIX)/share/man
DESTDIR =
INSTALL = install

# `rt run` finds out by itself whether there is anything to do.
all:
	rt run < stdin > /dev/null

out/$(PROGRAM):
	rt run < stdin > /dev/null

install: out/$(PROGRAM)
	$(INSTALL) -d $(DESTDIR)$(BINDIR) $(DESTDIR)$(MANDIR)/man1
	$(INSTALL) -m 755 out/$(PROGRAM) $(DESTDIR)$(BINDIR)
	$(INSTALL) -m 644 $(PROGRAM).1 $(DESTDIR)$(MANDIR)/man1

uninstall:
	rm -f $(DESTDIR)$(BINDIR)/$(PROGRAM) $(DESTDIR)$(MANDIR)/man1/$(PROGRAM).1

.PHONY: all install uninstall
