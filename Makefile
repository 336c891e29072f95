# Istrolf. The work is done by the scripts of make/.
#     make                                    proves and builds the programs and the archive
#     make check                              the gate
#     make install PREFIX=/usr/local DESTDIR=
#     make uninstall PREFIX=/usr/local DESTDIR=
#     make dist                               a tarball of what is installed, for machines without the kit
.POSIX:
.PHONY: all check install uninstall dist

PREFIX = /usr/local
DESTDIR =

all:
	@make/build

check:
	@.ci/run

install: all
	@make/install '$(PREFIX)' '$(DESTDIR)'

uninstall:
	@make/uninstall '$(PREFIX)' '$(DESTDIR)'

dist: all
	@make/dist
