# make            proves and builds the programs ipcap and iphead
# make install    puts them and their manual pages below PREFIX; builds those that are not there
# make uninstall  removes them again
#
# PREFIX=/usr/local       where to install; BINDIR, MANDIR and DESTDIR as usual.
# The library for C has a Makefile of its own, in crates/etherparse_c.

all install uninstall:
	$(MAKE) -C crates/ipcap $@
	$(MAKE) -C crates/iphead $@

.PHONY: all install uninstall
