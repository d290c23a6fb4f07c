# Builds, shows, tries and installs Tullweth; `make help` lists what there is. What is proved is proved by build/prove,
# and what is installed by build/install. All prerequisites are relative names: the checkout's path may have spaces.
# Where everything is built and current nothing is written in the checkout.

CC = gcc
CFLAGS = -O2
LDFLAGS =

PREFIX = /usr/local
BINDIR = $(PREFIX)/bin
LIBDIR = $(PREFIX)/lib
INCLUDEDIR = $(PREFIX)/include
MANDIR = $(PREFIX)/share/man
PYTHONDIR = $(PREFIX)/lib/tullweth/python
# By the environment, so that build/install has them as they are, with spaces and quotes.
export DESTDIR PREFIX BINDIR LIBDIR INCLUDEDIR MANDIR PYTHONDIR

version := $(shell sed -n 's/^.define TULLWETH_VERSION "\(.*\)"$$/\1/p' include/tullweth.h)
ifeq ($(version),)
$(error include/tullweth.h does not define TULLWETH_VERSION)
endif
soname := libtullweth.so.$(firstword $(subst ., ,$(version)))

library := target/staticlib/libtullweth.a
shared := target/lib/libtullweth.so
# The word `stale`, which is no file, where there is something to prove. Files under crates/ are not listed here, since
# an editor may leave some there whose names make cannot take.
stale := $(shell build/prove stale)

.SUFFIXES:
.PHONY: all host incident check install uninstall clean help stale

## make            prove and build the library: static, and shared for Python (the same as make all)
all: $(library) $(shared)

$(library): $(stale)
	@build/prove

# What is compiled is renamed into place, so that calls at once do not meet in a file.
$(shared): $(library) build/exports.map include/tullweth.h Makefile
	@mkdir -p $(@D)
	$(CC) -shared -Wl,-soname,$(soname) -Wl,--version-script,build/exports.map \
	    -Wl,-z,defs -Wl,-z,text -Wl,-z,relro -Wl,-z,now -Wl,-z,noexecstack $(LDFLAGS) \
	    -Wl,--whole-archive $(library) -Wl,--no-whole-archive -o $@.$$$$ && mv -f $@.$$$$ $@

## make host       build the C host, target/host
host: target/host

target/host: examples/host.c $(wildcard include/*.h) $(library)
	$(CC) -std=c99 -Wall -Wextra -Werror $(CFLAGS) -Iinclude examples/host.c $(library) $(LDFLAGS) \
	    -o $@.$$$$ && mv -f $@.$$$$ $@

## make incident   build, then show the incident in both readings
incident: all
	@echo 'samples/incident.txt: the weights as the miner wrote them'
	@bin/tullweth prune samples/incident.txt
	@echo
	@echo 'samples/incident_reversed.txt: the bytes of each weight reversed, as the new host read the same file'
	@bin/tullweth prune samples/incident_reversed.txt

## make check      the gate: prove everything, then try everything
check:
	@bash .ci/run

## make install    build, then install; PREFIX=/usr/local, DESTDIR, BINDIR, LIBDIR, INCLUDEDIR, MANDIR, PYTHONDIR
install: all
	@build/install install $(version)

## make uninstall  remove what make install with the same folders put there
uninstall:
	@build/install uninstall $(version)

## make clean      remove target/ and what the prover kept in crates/: the next build proves again
clean:
	rm -rf target crates/*/out

## make help       list these
help:
	@sed -n 's/^## //p' Makefile
