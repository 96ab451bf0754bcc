# make            proves and builds the libraries and the program into target/package (about 25 minutes the first time)
# make check      the tests, after make; the gate, which proves all from nothing, is .ci/run
# make install    to PREFIX (/usr/local), below DESTDIR if that is set
PREFIX ?= /usr/local
DESTDIR ?=
CFLAGS ?= -O2
INSTALL ?= install

VERSION := $(shell sed -n 's/^\#define WALDUMRE_VERSION "\(.*\)"/\1/p' include/waldumre.h)
# before 1.0.0 a minor version may change calls, so it is part of the name that programs load
ABI := $(basename $(VERSION))
# the label book is a library of its own
LIBRARIES := waldumre $(if $(wildcard crates/waldumre_book),waldumre_book)
HEADERS := $(wildcard include/*.h)
# the practice shops of the shell
SHOPS := practice/harbour practice/hill
out := target/package
# what the proofs and programs are made of; out/ is what rt makes of it
crates := crates.txt $(shell find crates \( -name out -o -name must-fail \) -prune -o -type f -print)

all: $(LIBRARIES:%=$(out)/lib%.a) $(LIBRARIES:%=$(out)/lib%.so.$(VERSION)) $(out)/waldumre-bytes

# before anything is proved: what will be needed is there
needed:
	@sh -c '. tools/need.sh && need rt $(firstword $(CC)) $(AR) $(INSTALL)' make

target/staticlib/lib%.a: $(crates) | needed
	@tools/prove.sh lib $*
	@mkdir -p $(@D)
	@cp crates/$*/out/lib$*.a $@

target/bin/program: $(crates) | needed
	@tools/prove.sh run program
	@mkdir -p $(@D)
	@cp crates/program/out/program $@

$(out)/waldumre-bytes: target/bin/program
	@mkdir -p $(out)
	cp $< $@

$(out)/%.o: package/%.c include/waldumre.h
	@mkdir -p $(out)
	$(CC) -std=c11 -Wall -Wextra -Wpedantic -fPIC $(CPPFLAGS) $(CFLAGS) -Iinclude -c $< -o $@

# the engine has two functions in C beside the proved ones
extra_waldumre := $(out)/version.o $(out)/refusal_text.o

.SECONDEXPANSION:
$(out)/lib%.a: target/staticlib/lib%.a $$(extra_$$*)
	@mkdir -p $(out)
	rm -f $@
	cp $< $@
	$(if $(extra_$*),$(AR) r $@ $(extra_$*))

$(out)/lib%.so.$(VERSION): $(out)/lib%.a package/%.map
	$(CC) -shared -o $@ -Wl,-soname,lib$*.so.$(ABI) -Wl,--version-script=package/$*.map -Wl,-z,defs -Wl,-z,noexecstack \
	  -Wl,-z,relro -Wl,-z,now $(LDFLAGS) -Wl,--whole-archive $< -Wl,--no-whole-archive

check: all
	@for test in tests/*.sh; do bash $$test || { echo "FAILED: $$test"; exit 1; }; done

to := $(DESTDIR)$(PREFIX)
install: all
	$(INSTALL) -d $(to)/bin $(to)/include $(to)/lib/pkgconfig $(to)/share/man/man1 $(to)/share/man/man3 $(to)/share/doc/waldumre
	$(INSTALL) -d $(to)/lib/waldumre/waldumre_shell $(SHOPS:%=$(to)/share/waldumre/%)
	$(INSTALL) -m 755 $(out)/waldumre-bytes $(to)/bin/waldumre-bytes
	$(INSTALL) -m 755 shell/waldumre $(to)/bin/waldumre
	$(INSTALL) -m 644 shell/waldumre_shell/*.py $(to)/lib/waldumre/waldumre_shell
	$(INSTALL) -m 644 examples/bindings/waldumre.py tools/decode.py $(to)/lib/waldumre
	for shop in $(SHOPS); do $(INSTALL) -m 644 $$shop/* $(to)/share/waldumre/$$shop || exit 1; done
	$(INSTALL) -m 644 $(HEADERS) $(to)/include
	for name in $(LIBRARIES); do \
	  $(INSTALL) -m 644 $(out)/lib$$name.a $(to)/lib && \
	  $(INSTALL) -m 644 $(out)/lib$$name.so.$(VERSION) $(to)/lib && \
	  ln -sf lib$$name.so.$(VERSION) $(to)/lib/lib$$name.so.$(ABI) && \
	  ln -sf lib$$name.so.$(ABI) $(to)/lib/lib$$name.so && \
	  sed 's|@PREFIX@|$(PREFIX)|; s|@VERSION@|$(VERSION)|' package/$$name.pc.in >$(out)/$$name.pc && \
	  $(INSTALL) -m 644 $(out)/$$name.pc $(to)/lib/pkgconfig && \
	  $(INSTALL) -m 644 man/$$name.3 $(to)/share/man/man3 || exit 1; \
	done
	$(INSTALL) -m 644 man/waldumre.1 man/waldumre-bytes.1 $(to)/share/man/man1
	$(INSTALL) -m 644 README.md SECURITY.md CHANGELOG.md LICENSE docs/FORMAT.md docs/CLASS.md $(to)/share/doc/waldumre

clean:
	rm -rf $(out)

.PHONY: all check install clean needed
# two rt at a time would wait for each other
.NOTPARALLEL:
.SECONDARY:
.DELETE_ON_ERROR:
