# Plain `make` prints the targets: each has its line behind `##`.
.PHONY: help demo test library install bench check facts panel rom format kit clean

help: ## these lines
	@awk -F ':.*## ' '/^[a-z]+:.*## / { printf "make %-8s %s\n", $$1, $$2 }' Makefile

PHASE = 0
SNAPSHOT = cargo run --quiet --release --offline -p snapshot

demo: target/library/libbinturamis.a ## two pages of a plant, and a list before and after its scroll, drawn by the library: shown here, and as target/demo*.png; PHASE=1 hides what flashes
	@cd host && $(SNAPSHOT) --bin demonstration -- 40 >../target/demo.accesses
	@cd host && $(SNAPSHOT) --bin snapshot -- ../target/demo.accesses --png ../target/demo.png --phase $(PHASE)
	@cd host && $(SNAPSHOT) --bin demonstration -- 80 >../target/demo80.accesses
	@cd host && $(SNAPSHOT) --bin snapshot -- ../target/demo80.accesses --png ../target/demo80.png --phase $(PHASE)
	@cd host && $(SNAPSHOT) --bin demonstration -- list >../target/demo-list.accesses
	@cd host && $(SNAPSHOT) --bin snapshot -- ../target/demo-list.accesses --png ../target/demo-list.png --phase $(PHASE)
	@cd host && $(SNAPSHOT) --bin demonstration -- scroll >../target/demo-scroll.accesses
	@cd host && $(SNAPSHOT) --bin snapshot -- ../target/demo-scroll.accesses --steps 40 --png ../target/demo-scroll.png --phase $(PHASE)
	@echo "target/demo.png and target/demo80.png are the whole pictures, of 40 and 80 columns; target/demo-list.png and target/demo-scroll.png"
	@echo "are the list before and after it was scrolled by MVT; the register accesses that draw each of them are beside it, in *.accesses"

test: ## the gate: proofs, must-fail edits, programs, host tests, installation, benchmark, demonstration
	./.ci/run

# Another kit than the recorded one is told, and no reason to stop: what is proved with it is proved.
NAMED_KIT = .ci/kit || echo "Going on with the kit that is here." >&2

library: ## the archive and the header for C and Rust, in target/library
	@$(NAMED_KIT)
	cd crates/binturamis_c && rt lib
	mkdir -p target/library
	cp crates/binturamis_c/out/libbinturamis_c.a target/library/libbinturamis.a
	cp include/binturamis.h target/library/
	host/bridge/build target/library

# Made again only where a source is newer, since making it takes longer than what asks for it.
target/library/libbinturamis.a: include/binturamis.h $(wildcard crates/*/src/*.rt)
	$(MAKE) library

PREFIX = /usr/local
INSTALLED = $(DESTDIR)$(PREFIX)

install: target/library/libbinturamis.a ## the archive, the header and a pkg-config file below PREFIX=/usr/local; DESTDIR goes before it
	@case "$(PREFIX)" in /*) ;; *) echo "PREFIX is $(PREFIX), which is no absolute path" >&2; exit 1 ;; esac
	mkdir -p "$(INSTALLED)/lib/pkgconfig" "$(INSTALLED)/include"
	install -m 644 target/library/libbinturamis.a "$(INSTALLED)/lib/"
	install -m 644 target/library/binturamis.h "$(INSTALLED)/include/"
	sed "s|@PREFIX@|$(PREFIX)|; s|@VERSION@|$$(cat VERSION)|" include/binturamis.pc.in >"$(INSTALLED)/lib/pkgconfig/binturamis.pc"

bench: target/library/libbinturamis.a ## what calls of the library cost, in instructions
	host/bench/run

check: ## the proofs alone, over what has changed, and the program run
	@$(NAMED_KIT)
	rt all check
	cd crates/panel && rt run <stdin | cmp - stdout

facts: ## what each must-fail edit contradicts, as the gate told it, or else by trying them; fails where that is no fact
	@.ci/facts

panel: target/bin/panel ## the program `panel` on the example of the rules
	@cd host && cargo run --quiet --release --offline -p panel <../crates/panel/stdin

target/bin/panel: $(wildcard crates/*/src/*.rt)
	cd crates/panel && rt run <stdin >/dev/null
	mkdir -p target/bin
	cp crates/panel/out/panel target/bin/

rom: ## the demonstration ROMs, target/demonstration.rom, with narrow letters for 80 columns target/narrow.rom, and target/ts9347.rom
	@mkdir -p target
	@cd host && cargo run --quiet --release --offline -p rom -- ../target/demonstration.rom
	@cd host && cargo run --quiet --release --offline -p rom -- --narrow ../target/narrow.rom
	@cd host && cargo run --quiet --release --offline -p rom -- --ts9347 ../target/ts9347.rom
	@echo "target/demonstration.rom, target/narrow.rom and target/ts9347.rom are written"

format: ## the layout of every file
	for crate in crates/*; do (cd "$$crate" && rt fmt) || exit 1; done
	cd host && cargo fmt

kit: ## records the kit that is here in the file KIT; then `make test` must pass
	@kit=$$(rt version) && echo "$$kit" >KIT
	@echo "KIT is now: $$(cat KIT)"

clean: ## removes all that was made: target, host/target and what rt keeps in the crates
	rm -rf target host/target crates/*/out
