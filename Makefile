# The library for C. `make` proves and builds the archive, an object for each crate that exports calls. `make install`
# copies it, with the header, a shared object, the pkg-config file and the man page. Where the archive stands, installing
# needs a C compiler and no rt.
EXPORTING = host_c hostcount_c hostfind_c hostcheck_c hostread_c
OBJECTS = $(EXPORTING:=.o)
SOURCES = crates.txt kit.txt $(shell find crates -name out -prune -o \( -name '*.rt' -o -name '*.antt' \) -print)
PREFIX = /usr/local
LIBDIR = $(PREFIX)/lib
INCLUDEDIR = $(PREFIX)/include
MANDIR = $(PREFIX)/share/man
ARCHIVE = target/libfadc250.a
# Any x86-64 runs what is built; rt's own choice is a later processor.
CPU = --cpu x86-64
VERSION = $(shell sed -n 's/^.define FADC250_VERSION "\(.*\)"/\1/p' include/fadc250.h)
# Only under its major version, so that -lfadc250 links the archive. Python's ctypes loads this one.
SHARED = libfadc250.so.$(firstword $(subst ., ,$(VERSION)))
INSTALLED = $(LIBDIR)/libfadc250.a $(LIBDIR)/$(SHARED) $(LIBDIR)/pkgconfig/fadc250.pc \
    $(INCLUDEDIR)/fadc250.h $(MANDIR)/man3/fadc250.3

.PHONY: all install uninstall

all: $(ARCHIVE)

$(ARCHIVE): $(SOURCES)
	@echo "proving the library and all that it leans on, then building it: some minutes the first time"
	for crate in $(EXPORTING); do (cd crates/$$crate && ../../tools/here rt lib $(CPU)) || exit 1; done
	mkdir -p target
	cd target && for crate in $(EXPORTING); do ar x ../crates/$$crate/out/lib$$crate.a || exit 1; done
	rm -f $@
	cd target && ar rcs $(notdir $@) $(OBJECTS) && rm $(OBJECTS)

# rt builds a program to run it: here on no input, for which it prints nothing.
target/bin/lister: $(SOURCES)
	cd crates/lister && rt run $(CPU) </dev/null
	mkdir -p $(@D)
	cp crates/lister/out/lister $@

install: $(ARCHIVE)
	install -d $(addprefix $(DESTDIR),$(sort $(dir $(INSTALLED))))
	install -m 644 $(ARCHIVE) $(DESTDIR)$(LIBDIR)/libfadc250.a
	$(CC) -shared -Wl,-soname,$(SHARED) -Wl,--whole-archive $(ARCHIVE) -Wl,--no-whole-archive \
	    -o $(DESTDIR)$(LIBDIR)/$(SHARED)
	sed 's|@LIBDIR@|$(LIBDIR)|; s|@INCLUDEDIR@|$(INCLUDEDIR)|; s|@VERSION@|$(VERSION)|' fadc250.pc.in \
	    >$(DESTDIR)$(LIBDIR)/pkgconfig/fadc250.pc
	install -m 644 include/fadc250.h $(DESTDIR)$(INCLUDEDIR)
	install -m 644 man/fadc250.3 $(DESTDIR)$(MANDIR)/man3

uninstall:
	rm -f $(addprefix $(DESTDIR),$(INSTALLED))
