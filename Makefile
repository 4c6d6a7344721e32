PREFIX = /usr/local
PROGRAM = crates/f2_tools/out/f2_tools
MEASURE = crates/f2_measure/out/f2_measure
CASES = crates/f2_cases/out/f2_cases
SOURCES = crates.txt $(shell find crates -name out -prune -o -type f \( -name '*.rt' -o -name '*.antt' \) -print)

.PHONY: build demo test check bench install

build: $(PROGRAM) $(MEASURE)

# `rt run` proves what it builds, and ends as the program does: with status 16, since it is given no words.
$(PROGRAM) $(MEASURE): $(SOURCES)
	cd $(@D)/.. && rt run >/dev/null; [ $$? -eq 16 ]
	touch $@

$(CASES): $(SOURCES)
	cd $(@D)/.. && rt run >/dev/null
	touch $@

demo: build
	scripts/demo.sh

test:
	.ci/run

check: build $(CASES)
	scripts/check.sh

bench: build
	bench/super_copies.py
	bench/dump_cp.py
	bench/dump_tables.py
	bench/dump_files.py
	bench/libraries.py
	bench/new_images.py
	bench/check.py
	bench/defrag.py

install: build
	install -D -m 755 $(PROGRAM) $(DESTDIR)$(PREFIX)/bin/f2tools
