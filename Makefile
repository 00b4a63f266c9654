# `make` builds the program and the library for C from their source, in minutes and without a proof; `make prove`
# proves them, and puts what is proved in their place; `make check` proves what changed. `make test` runs each test on
# what is built, `make gate` proves all from nothing and then tests that, and `make interop` tries other mail software.
# `make install PREFIX=/usr/local` puts the program in place, with its manual pages, units and documents, and the library
# with its header, `make uninstall PREFIX=/usr/local` takes that away again, and `make dist` and `make deb` pack both for
# machines without the toolchain: the proved ones, or with UNPROVED=1 those that are built. `make deb` takes Debian's
# packages debhelper and dh-python. `make bench` measures, and `make definitions` writes dist/DEFINITIONS.md for a release:
# what contracts speak of, with its comments.

PREFIX ?= /usr/local
LIBRARY := build/deiruska/lib/libdeiruska.a

.PHONY: all built prove check definitions test gate interop bench install uninstall dist deb clean

all: built
	@$(MAKE) -s $(LIBRARY)
	@echo "build/milter_tool is `build/milter_tool --version`; the library for C is in build/deiruska"

built:
	@python3 tools/build.py milter_tool milter_c

$(LIBRARY): build/libmilter_c.a include/deiruska.h tools/library.sh
	bash tools/library.sh make build/libmilter_c.a build/deiruska "$(PREFIX)"
	@touch $@

prove:
	@python3 tools/prove.py --build milter_tool milter_c
	@$(MAKE) -s all

check:
	@python3 tools/prove.py

definitions:
	@mkdir -p dist
	python3 tools/definitions.py >dist/DEFINITIONS.md

test:
	@python3 tools/build.py all
	@python3 tests/run.py

gate:
	@python3 tests/run.py --gate

interop: all
	bash tests/interop.sh

bench: all
	bash bench/trace.sh
	bash bench/sessions.sh
	bash bench/wire.sh
	bash bench/edits.sh
	bash bench/filter.sh
	bash bench/serve.sh
	bash bench/load.sh
	bash bench/core.sh
	bash bench/mta.sh
	bash bench/texts.sh
	bash bench/world.sh
	bash bench/rules.sh
	bash bench/python.sh
	python3 bench/hostile.py build/milter_tool

install: all
	bash tools/package.sh install "$(DESTDIR)" "$(PREFIX)"

uninstall:
	bash tools/package.sh uninstall "$(DESTDIR)" "$(PREFIX)"

dist deb: all
	bash tools/package.sh $@

clean:
	rm -rf build crates/*/out dist
