# make test      the gate: proves every crate from nothing, tries the must-fail edits, runs the programs, hands them inputs that do not arrive whole
# make run       answers a drive sheet: make run SHEET=file; proves and builds the program first
# make try       answers a drive sheet from a build of the same code that is not proved: make try SHEET=file
# make edits     tries the must-fail edits of one crate alone: make edits CRATE=name
# make times     proves every crate from nothing, in a copy: each crate's seconds, the total, what its edits cost
# make worked    writes what `program_worked` is run on, and what it must print, from sheets/
# make lib       proves the C functions and makes their archive, target/staticlib/libwalls_c.a
# make bindings  makes that archive, builds and runs the C examples, plays stored searches through `walls`,
#                builds and tests the Rust crate
# make compare   drives the original Rust and the port from the same values and compares everything after every call; SEED=n for others
# make bench     times the original Rust and the port on the same inputs; BENCH=--markdown prints the rows of docs/PERFORMANCE.md's table
# make answers   prints the original Rust's answers to the kept list of searches, and compares them with the list
# make stored    writes the stored searches and the original Rust's answers again, compares them with those of crates/program_replay,
#                and runs compare's own tests
# make routes    runs the proved search for a route beside its rule computed another way

KIT = rattle-kit-13f logic dac8208d650f15bf

.PHONY: test kit tidy run try edits times worked current lib bindings compare bench answers stored routes

# What is run after the gate says nothing where it holds: its count stays the last line.
test: kit current tidy
	@tools/gate
	@for name in drive program_worked program_replay; do programs="$$programs crates/$$name/out/$$name"; done; tests/failed_read $$programs

kit:
	@found=$$(rt version); test "$$found" = "$(KIT)" || echo "note: proved with '$(KIT)'; the kit at hand is '$$found'"

# what no prover sees: the lists and the layout of the sources
tidy:
	@tools/deps
	@tools/layout
	@tools/believed
	@tools/wrong

run:
	@tools/run "$(SHEET)"

try:
	@tools/try "$(SHEET)"

edits:
	@tools/edits $(CRATE)

times:
	@tools/times

# the sheets in the order of their names, each after a line with the number of its bytes; the answers in the same order
worked current: export LC_ALL = C
SHEETS = for f in sheets/*.sheet; do printf '%d\n' "$$(wc -c < "$$f")"; cat "$$f"; done
ANSWERS = for f in sheets/*.sheet; do cat "$${f%.sheet}.answer"; done

worked:
	@{ $(SHEETS); } > crates/program_worked/stdin
	@{ $(ANSWERS); } > crates/program_worked/stdout

current:
	@{ $(SHEETS); } | cmp - crates/program_worked/stdin
	@{ $(ANSWERS); } | cmp - crates/program_worked/stdout
	@echo "crates/program_worked has every sheet of sheets/ and its answer"

lib:
	@mkdir -p target/staticlib
	@cd crates/walls_c && { rt lib > ../../target/staticlib/walls_c.log 2>&1 || { cat ../../target/staticlib/walls_c.log; exit 1; }; }
	@cp crates/walls_c/out/libwalls_c.a target/staticlib/

bindings: lib
	@mkdir -p target/bindings
	@command -v $(CC) > /dev/null || { echo "make bindings: no C compiler is at hand"; exit 1; }
	@for name in example lent; do $(CC) -std=c11 -Wall -Wextra -pedantic -Werror -I bindings bindings/c/$$name.c target/staticlib/libwalls_c.a -o target/bindings/$$name || exit 1; done
	@target/bindings/example > target/bindings/stdout && cmp target/bindings/stdout bindings/c/stdout && cat bindings/c/stdout
	@target/bindings/lent
	@tests/walls_played
	@command -v cargo > /dev/null || { echo "make bindings: cargo is not at hand, so the Rust crate was neither built nor tested"; exit 1; }
	@cd bindings/rust && cargo build --quiet --offline --release --examples && cargo test --quiet --offline
	@cd bindings/rust && for name in narrow_ramp broad_valley nearest_first; do cargo run --quiet --offline --release --example $$name || exit 1; done

compare: lib
	@command -v cargo >/dev/null || { echo "make compare: cargo is not at hand, so the original Rust cannot be run"; exit 1; }
	@test -f compare/original/walls/search.rs || { echo "make compare: the original Rust is not at hand"; exit 1; }
	@cd compare/port && mkdir -p target && if cargo run --quiet --release --offline -- $(SEED) > target/stdout; then cat target/stdout; else cat target/stdout; exit 1; fi
	@test -n "$(SEED)" || { cmp compare/port/target/stdout compare/port/stdout && echo "the counts are those of compare/port/stdout"; }

bench: lib
	@command -v cargo >/dev/null || { echo "make bench: cargo is not at hand, so the original Rust cannot be run"; exit 1; }
	@cd compare/bench && cargo run --quiet --release --offline --bin bench -- $(BENCH)

answers:
	@command -v cargo >/dev/null || { echo "make answers: cargo is not at hand, so the original Rust cannot be run"; exit 1; }
	@cd compare && mkdir -p target && cargo run --quiet --release --offline --bin answers > target/answers.txt && cmp target/answers.txt answers/first.txt && echo "the answers are those of compare/answers/first.txt"

stored:
	@command -v cargo >/dev/null || { echo "make stored: cargo is not at hand, so the original Rust cannot be run"; exit 1; }
	@cd compare && mkdir -p target/stored && cargo run --quiet --release --offline --bin stored -- target/stored && cmp target/stored/stdin ../crates/program_replay/stdin && cmp target/stored/stdout ../crates/program_replay/stdout && echo "the files are those of crates/program_replay"
	@cd compare && { cargo test --quiet --release --offline > target/tests.log 2>&1 || { cat target/tests.log; echo "make stored: a test of compare/ fails"; exit 1; }; }

routes:
	@command -v cargo >/dev/null || { echo "make routes: cargo is not at hand"; exit 1; }
	@mkdir -p target/staticlib
	@cd crates/route_c && rt lib > /dev/null 2>&1 || { echo "make routes: rt lib failed in crates/route_c"; exit 1; }
	@cp crates/route_c/out/libroute_c.a target/staticlib/
	@cd compare/routes && mkdir -p target && cargo run --quiet --release --offline > target/stdout && cmp target/stdout stdout && cat stdout
