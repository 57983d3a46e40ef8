# The planner as libraries and as a distribution. `rt` of the Rattle kit proves and compiles what is linked; that takes many minutes the first time.
#
#   make shared                     target/lib/libslew.so: the whole of include/slew.h in one shared library
#   make install PREFIX=/usr/local  the header, the archives, the shared library and slew.pc for pkg-config
#   make python-test                the shared library, and the tests of bindings/python over it
#   make dist                       target/dist/slew-VERSION-x86_64-linux.tar.gz: all that a laboratory needs to plan, without the kit
#   make dist-check                 the same, and it is unpacked and tried where there is no kit
#   make test                       the gate (.ci/run): the tests of the tools, and rt ci
PREFIX = /usr/local
prefix = $(PREFIX)
version := $(shell sed -n 's/^.define SLEW_VERSION "\(.*\)"/\1/p' include/slew.h)
major := $(firstword $(subst ., ,$(version)))
names = export_mosaic export export_preview export_runs export_eigenaxis export_reference export_tools export_board export_samples
archives = $(names:%=target/staticlib/lib%.a)
shared = target/lib/libslew.so
programs = slew slew_eigenaxis slew_mosaic slew_samples slew_canonical slew_order slew_region
dist = target/dist/slew-$(version)-x86_64-linux

shared: archives
	@$(MAKE) --no-print-directory $(shared)

# the prover makes an archive anew only where a source is newer
archives:
	@oracle/archives $(names)

# of what the archives hold the shared library shows what the header declares
$(shared): $(archives) include/slew.h Makefile
	@mkdir -p target/lib
	@{ echo '{ global:'; sed -n 's/^[a-z].* \*\{0,1\}\(slew_[a-z_]*\)(.*/\1;/p' include/slew.h; echo 'local: *; };'; } > target/lib/symbols
	$(CC) -shared -Wl,-soname,libslew.so.$(major) -Wl,--version-script=target/lib/symbols -o $@.new -Wl,--whole-archive $(archives) -Wl,--no-whole-archive
	@mv $@.new $@
	@ln -sf libslew.so target/lib/libslew.so.$(major)

install: shared
	@$(MAKE) --no-print-directory installed

# what `install` and `dist` put below $(DESTDIR)$(PREFIX); `prefix` is what slew.pc says
installed:
	install -d $(DESTDIR)$(PREFIX)/include $(DESTDIR)$(PREFIX)/lib/pkgconfig
	install -m 644 include/slew.h $(DESTDIR)$(PREFIX)/include/slew.h
	install -m 644 $(archives) $(DESTDIR)$(PREFIX)/lib
	install -m 755 $(shared) $(DESTDIR)$(PREFIX)/lib/libslew.so.$(version)
	ln -sf libslew.so.$(version) $(DESTDIR)$(PREFIX)/lib/libslew.so.$(major)
	ln -sf libslew.so.$(major) $(DESTDIR)$(PREFIX)/lib/libslew.so
	@printf 'prefix=%s\nlibdir=$${prefix}/lib\nincludedir=$${prefix}/include\n\nName: slew\nDescription: Slew planner of air-bearing attitude tables\nVersion: %s\nLibs: -L$${libdir} -lslew\nCflags: -I$${includedir}\n' \
	    '$(prefix)' '$(version)' > $(DESTDIR)$(PREFIX)/lib/pkgconfig/slew.pc

python-test: shared
	python3 bindings/python/test_slew.py

# a distribution has the folders of the repository that users meet, its programs in bin/ and its libraries in lib/
dist: shared
	@./run --build $(programs)
	@rm -rf $(dist) $(dist).tar.gz
	@mkdir -p $(dist)/bin $(dist)/tools
	@cp $(programs:%=target/bin/%) $(dist)/bin
	@$(MAKE) --no-print-directory --quiet installed DESTDIR=$(dist) PREFIX= prefix='$$$${pcfiledir}/../..'
	@cp run README.md NOTICE LICENSE $(dist)
	@cp tools/slewtext tools/slew*.py $(dist)/tools
	@cp crates/sentences/stdout $(dist)/tools/sentences
	@cp -R docs examples bindings $(dist)
	@find $(dist) -name __pycache__ -prune -exec rm -rf {} +
	@rm -rf $(dist)/docs/landings $(dist)/examples/rust/target
	@python3 bindings/python/backend.py $(dist) > /dev/null
	@tar -C target/dist --sort=name --owner=0 --group=0 --numeric-owner -czf $(dist).tar.gz $(notdir $(dist))
	@echo $(dist).tar.gz

dist-check: dist
	@tools/dist-check $(dist).tar.gz

test:
	@.ci/run

.PHONY: shared archives install installed python-test dist dist-check test
