# The library for C, its pkg-config file, the programs and the examples, under target/. Needs the Rattle kit (RT) and a C compiler. `make help` lists the targets.
RT = rt
export RT
PREFIX = /usr/local
CFLAGS = -O2 -Wall -Wextra
VERSION = 1.7.0
SONAME = libcottontuff.so.1
library = target/staticlib/libcottontuff.a
shared = target/lib/libcottontuff.so.$(VERSION)
package = cottontuff-$(VERSION)-x86_64-linux
# rt's names have no hyphen; installed, cavity_measure is cavity-measure.
programs = cavity cavity_why cavity_measure cavity_bench
installed = $(subst _,-,$(programs))
# Not crates/NAME/out, where rt keeps what it made.
sources = crates.txt $(shell find crates/*/src crates/*/specs crates/*/proofs -name '*.rt' -o -name '*.antt')

all: $(library) $(shared) target/cottontuff.pc $(programs:%=target/bin/%) target/examples/bench-session target/examples/limited target/examples/explain target/examples/edge-ring

help:
	@echo 'make             the library, static and shared, target/cottontuff.pc, the programs, the examples in C'
	@echo 'make check       the gate: proves all, and tries the edits that must fail (.ci/run, some 30 minutes from nothing)'
	@echo 'make test        the tests outside the prover (tests/run)'
	@echo 'make install     into PREFIX (default /usr/local; DESTDIR before it): libraries, header, pkg-config file, programs, manual pages, guide, Rust crate, sources of the Python package'
	@echo '                 python/install PREFIX installs that package, and what it needs of Debian'
	@echo 'make uninstall   takes them out again'
	@echo 'make dist        target/$(package).tar.gz with its checksum: installs without the kit'
	@echo 'make clean       removes target/, and what rt keeps in crates/NAME/out'

# tools/build leaves a file as old as it is where it would be the same.
$(library): $(sources)
	tools/build cottontuff_c
	@touch $@

$(programs:%=target/bin/%): target/bin/%: $(sources)
	tools/build $*
	@touch $@

$(shared): $(library)
	mkdir -p target/lib
	$(CC) -shared -Wl,-soname,$(SONAME) -o $@ -Wl,--whole-archive $(library) -Wl,--no-whole-archive
	ln -sf libcottontuff.so.$(VERSION) target/lib/$(SONAME)
	ln -sf $(SONAME) target/lib/libcottontuff.so

# With another PREFIX its text is another.
target/cottontuff.pc: Makefile FORCE
	@mkdir -p target
	@printf '%s\n' 'prefix=$(PREFIX)' 'Name: cottontuff' 'Description: proved cavity kernel' 'Version: $(VERSION)' \
		'Cflags: -I$${prefix}/include' 'Libs: -L$${prefix}/lib -lcottontuff' >$@.new
	@cmp -s $@.new $@ && rm $@.new || mv $@.new $@

target/examples/%: examples/%.c include/cottontuff.h $(library)
	mkdir -p target/examples
	$(CC) $(CFLAGS) -Iinclude -o $@ $< $(library)

check:
	.ci/run

test:
	tests/run

to = $(DESTDIR)$(PREFIX)
install: all
	install -d $(to)/lib/pkgconfig $(to)/include $(to)/bin $(to)/share/man/man1 $(to)/share/doc/cottontuff $(to)/share/cottontuff/rust
	install -m 644 $(library) $(to)/lib
	install -m 755 $(shared) $(to)/lib
	ln -sf libcottontuff.so.$(VERSION) $(to)/lib/$(SONAME)
	ln -sf $(SONAME) $(to)/lib/libcottontuff.so
	install -m 644 target/cottontuff.pc $(to)/lib/pkgconfig
	install -m 644 include/cottontuff.h $(to)/include
	$(foreach p,$(programs),install -m 755 target/bin/$(p) $(to)/bin/$(subst _,-,$(p)) &&) true
	install -m 644 man/*.1 $(to)/share/man/man1
	install -m 644 docs/GUIDE.md CHANGELOG.md $(to)/share/doc/cottontuff
	install -m 644 rust/Cargo.toml rust/build.rs rust/cottontuff.rs $(to)/share/cottontuff/rust
	install -d $(to)/share/cottontuff/python/cottontuff $(to)/share/cottontuff/python/helper
	install -m 644 python/cottontuff/*.py python/cottontuff/py.typed $(to)/share/cottontuff/python/cottontuff
	install -m 644 python/cottontuff.1 $(to)/share/cottontuff/python
	install -m 644 python/helper/*.c python/helper/*.h $(to)/share/cottontuff/python/helper
	install -m 755 python/install $(to)/share/cottontuff/python
	install -m 644 docs/MESHES.md docs/PYTHON.md docs/CARRYING.md $(to)/share/doc/cottontuff

uninstall:
	rm -f $(to)/lib/libcottontuff.a $(to)/lib/libcottontuff.so $(to)/lib/$(SONAME) $(to)/lib/libcottontuff.so.$(VERSION) $(to)/lib/pkgconfig/cottontuff.pc
	rm -f $(to)/include/cottontuff.h $(installed:%=$(to)/bin/%) $(patsubst man/%,$(to)/share/man/man1/%,$(wildcard man/*.1))
	rm -rf $(to)/share/doc/cottontuff $(to)/share/cottontuff

# Everything below one folder, with a script that copies it into PREFIX.
dist: all
	rm -rf target/$(package)
	$(MAKE) -s install DESTDIR=target/$(package) PREFIX=/files
	install -m 755 packaging/install.sh target/$(package)/install.sh
	$(MAKE) -s target/cottontuff.pc
	tar -C target -czf target/$(package).tar.gz $(package)
	cd target && sha256sum $(package).tar.gz >$(package).tar.gz.sha256

clean:
	rm -rf target crates/*/out

FORCE:
.PHONY: all help check test install uninstall dist clean FORCE

# rt proves in one folder: one call at a time.
.NOTPARALLEL:
