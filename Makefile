# Library, header, tools and examples.
#
#   make                builds into build/; the archive is proved and built by rt if it is missing or older than crates/
#   make LIB=ARCHIVE    uses an archive that is built already
#   make install        PREFIX (/usr/local) and DESTDIR say where
#   make clean
#
# CC, CFLAGS, CPPFLAGS and LDFLAGS are the caller's.

CFLAGS ?= -O2 -Wall -Wextra
PREFIX ?= /usr/local
BUILD ?= build
ARCHIVE := target/staticlib/libengine.a
LIB ?= $(ARCHIVE)
# The header has the version.
VERSION := $(shell sed -n 's/^.define GILTHOREN_VERSION_[MP][A-Z]* //p' include/gilthoren.h | paste -sd. -)

COMPILE = $(CC) -std=c11 $(CPPFLAGS) $(CFLAGS) -I$(BUILD)
HEADERS := $(wildcard tools/*.h) $(BUILD)/gilthoren.h
SHEET := tools/store.c tools/text.c tools/sheet_text.c tools/sheet_read.c tools/sheet_write.c
TOOLS := $(BUILD)/gilthoren-sheet $(BUILD)/gilthoren-intel
LIBRARY := $(BUILD)/libgilthoren.a $(BUILD)/gilthoren.h
EXAMPLES := $(BUILD)/listing $(BUILD)/lower
INSTALL ?= install

all: $(LIBRARY) $(TOOLS) $(EXAMPLES)

# what rt keeps is in crates/*/out; the archive is engine_c's
$(ARCHIVE): $(shell find crates crates.txt -path 'crates/*/out' -prune -o -type f -print)
	cd crates/engine_c && rt lib
	mkdir -p $(@D)
	cp crates/engine_c/out/libengine_c.a $@

$(BUILD):
	mkdir -p $@

# compared, for another LIB may be older than the last one's copy
$(BUILD)/libgilthoren.a: $(LIB) always | $(BUILD)
	@cmp -s $(LIB) $@ || cp $(LIB) $@

$(BUILD)/gilthoren.h: include/gilthoren.h | $(BUILD)
	cp $< $@

$(BUILD)/gilthoren-sheet: tools/gilthoren-sheet.c $(SHEET) $(HEADERS) | $(BUILD)
	$(COMPILE) $(LDFLAGS) -o $@ $(filter %.c,$^)

$(BUILD)/gilthoren-intel: tools/gilthoren-intel.c tools/intel.c tools/refusals.c $(SHEET) $(HEADERS) | $(BUILD)
	$(COMPILE) $(LDFLAGS) -o $@ $(filter %.c,$^)

$(BUILD)/listing: examples/listing.c $(LIBRARY)
	$(COMPILE) $(LDFLAGS) -o $@ $(filter %.c %.a,$^)

$(BUILD)/lower: examples/lower.c tools/refusals.c tools/plain_words.c $(SHEET) $(HEADERS) $(LIBRARY)
	$(COMPILE) $(LDFLAGS) -o $@ $(filter %.c %.a,$^)

install: $(LIBRARY) $(TOOLS)
	$(INSTALL) -d $(DESTDIR)$(PREFIX)/bin $(DESTDIR)$(PREFIX)/include $(DESTDIR)$(PREFIX)/lib/pkgconfig $(DESTDIR)$(PREFIX)/share/doc/gilthoren
	$(INSTALL) -m 755 $(TOOLS) $(DESTDIR)$(PREFIX)/bin
	$(INSTALL) -m 644 include/gilthoren.h $(DESTDIR)$(PREFIX)/include
	$(INSTALL) -m 644 $(BUILD)/libgilthoren.a $(DESTDIR)$(PREFIX)/lib
	$(INSTALL) -m 644 docs/FORMAT.md docs/TOOLS.md $(DESTDIR)$(PREFIX)/share/doc/gilthoren
	sed -e 's|@PREFIX@|$(PREFIX)|' -e 's|@VERSION@|$(VERSION)|' gilthoren.pc.in > $(DESTDIR)$(PREFIX)/lib/pkgconfig/gilthoren.pc

clean:
	rm -rf $(BUILD)

.PHONY: all install clean always
.DELETE_ON_ERROR:
