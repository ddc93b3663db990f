# The archive of the library, and its place among a host's libraries. It takes the Rattle kit (`rt`) on the path.
#   make                                    proves the library, writes target/TARGET/libhemotusap.a and says so
#   make targets                            the same for every target
#   make install PREFIX=/usr/local DESTDIR= installs it with both headers, for pkg-config and for CMake
#   make uninstall PREFIX=... DESTDIR=...   removes those files
# TARGET is one of those below, and this machine where none is given. For wasm64 there is more than the archive: the module that
# pages and node run, and its JavaScript.
PREFIX ?= /usr/local
TARGET ?= $(shell uname -m)-linux
VERSION = 0.1.0
every = x86_64-linux aarch64-linux x86_64-windows arm64-macos x86_64-macos wasm64
$(if $(filter $(TARGET),$(every)),,$(error there is no target $(TARGET), but there are $(every)))

# What CMake calls the system of each target that has one.
system_linux = Linux
system_windows = Windows
system_macos = Darwin
system = $(system_$(lastword $(subst -, ,$(TARGET))))

for_pages = hemotusap.wasm hemotusap.mjs hemotusap-numbers.mjs
made_for = $(addprefix target/$(1)/,libhemotusap.a $(if $(filter wasm64,$(1)),$(for_pages)))
kept = target/module
to_include = $(DESTDIR)$(PREFIX)/include
to_lib = $(DESTDIR)$(PREFIX)/lib
to_share = $(DESTDIR)$(PREFIX)/share/hemotusap
filled_in = sed 's|@PREFIX@|$(PREFIX)|; s|@VERSION@|$(VERSION)|; s|@TARGET@|$(TARGET)|; s|@SYSTEM@|$(system)|'

.PHONY: all targets install uninstall

all: $(call made_for,$(TARGET))
	@printf '%s\n' $^

targets: $(foreach target,$(every),$(call made_for,$(target)))
	@printf '%s\n' $^

# Proved once for all targets. The folders too, since a file that went is a change as well; but not what the kit keeps beside them.
$(kept)/module.bc: crates.txt tools/keep-module $(shell find crates/*/src crates/*/specs crates/*/proofs)
	@tools/keep-module $(kept)

# The kit compiles for this one itself.
target/x86_64-linux/libhemotusap.a: $(kept)/module.bc
	@install -m 644 -D $(kept)/libhemotusap.a $@

target/%/libhemotusap.a: $(kept)/module.bc tools/compile-module
	@tools/compile-module $< $* $@

target/wasm64/hemotusap.wasm: target/wasm64/libhemotusap.a include/hemotusap.h tools/link-wasm tools/header.bash
	@tools/link-wasm $< $@

target/wasm64/hemotusap.mjs: javascript/hemotusap.mjs
	@install -m 644 -D $< $@

target/wasm64/hemotusap-numbers.mjs: include/hemotusap.h tools/header-numbers
	@tools/header-numbers $< $@

# A whole path, since hemotusap.pc tells it to compilers that stand elsewhere.
install: $(call made_for,$(TARGET))
	@case '$(PREFIX)' in /*) ;; *) echo 'PREFIX has to begin with /' >&2; exit 1 ;; esac
	install -d '$(to_include)' '$(to_lib)/pkgconfig' '$(to_lib)/cmake/hemotusap'
	install -m 644 include/hemotusap.h include/hemotusap.hpp '$(to_include)'
	install -m 644 $(filter %.a,$^) '$(to_lib)'
	$(filled_in) packaging/hemotusap.pc.in >'$(to_lib)/pkgconfig/hemotusap.pc'
	install -m 644 packaging/hemotusap-config.cmake '$(to_lib)/cmake/hemotusap'
	$(filled_in) packaging/hemotusap-config-version.cmake.in >'$(to_lib)/cmake/hemotusap/hemotusap-config-version.cmake'
	chmod 644 '$(to_lib)/pkgconfig/hemotusap.pc' '$(to_lib)/cmake/hemotusap/hemotusap-config-version.cmake'
	$(if $(filter-out %.a,$^),install -m 644 -D -t '$(to_share)' $(filter-out %.a,$^))

uninstall:
	rm -f '$(to_include)/hemotusap.h' '$(to_include)/hemotusap.hpp' '$(to_lib)/libhemotusap.a' '$(to_lib)/pkgconfig/hemotusap.pc'
	rm -f '$(to_lib)/cmake/hemotusap/hemotusap-config.cmake' '$(to_lib)/cmake/hemotusap/hemotusap-config-version.cmake'
	rm -f $(patsubst %,'$(to_share)/%',$(for_pages))
