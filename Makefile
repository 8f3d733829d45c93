# Builds and installs the library for C:
#
#     make                                      proves the library and writes lib/libsarvoltig.a, if a source is newer
#     make install PREFIX=DIR [DESTDIR=DIR]     headers, library, and what pkg-config and CMake find it by
#     make uninstall PREFIX=DIR [DESTDIR=DIR]
#
# No installed file has the name of PREFIX in it, so the directory can be moved.

PREFIX = /usr/local
to = $(DESTDIR)$(PREFIX)

# A part of the version, which include/sarvoltig.h has.
part = $(shell sed -n 's/^.define SARVOLTIG_VERSION_$(1) //p' include/sarvoltig.h)
major := $(call part,MAJOR)
minor := $(call part,MINOR)
next_minor := $(shell echo $$(($(minor) + 1)))
version = $(major).$(minor).$(call part,PATCH)

headers = $(wildcard include/*.h)
package = target/package
cmake_files = sarvoltigConfig.cmake sarvoltigConfigVersion.cmake
package_files = $(addprefix $(package)/,sarvoltig.pc $(cmake_files))
installed = $(headers) lib/libsarvoltig.a lib/pkgconfig/sarvoltig.pc $(addprefix lib/cmake/sarvoltig/,$(cmake_files))

.PHONY: all library install uninstall

all: library $(package_files)

# Whether the library is older than its sources is decided there.
library:
	tools/build_library

$(package)/%: packaging/%.in include/sarvoltig.h Makefile
	mkdir -p $(package)
	sed 's/@VERSION@/$(version)/g; s/@MAJOR@/$(major)/g; s/@MINOR@/$(minor)/g; s/@NEXT_MINOR@/$(next_minor)/g' $< > $@

install: all
	mkdir -p "$(to)/include" "$(to)/lib/pkgconfig" "$(to)/lib/cmake/sarvoltig"
	install -m 644 $(headers) "$(to)/include"
	install -m 644 lib/libsarvoltig.a "$(to)/lib"
	install -m 644 $(package)/sarvoltig.pc "$(to)/lib/pkgconfig"
	install -m 644 $(addprefix $(package)/,$(cmake_files)) "$(to)/lib/cmake/sarvoltig"

uninstall:
	rm -f $(foreach file,$(installed),"$(to)/$(file)")
	if [ -d "$(to)/lib/cmake/sarvoltig" ]; then rmdir "$(to)/lib/cmake/sarvoltig"; fi
