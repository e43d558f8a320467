# make plan: the planning program on sheet W, or on SHEET=file; make try: the one that tries every plan. make test: the gate.
# Needed: the Rattle toolchain (rt), gcc and cargo.
PREFIX ?= /usr/local
SHEET ?= crates/planner/stdin
LIB = target/staticlib/libfulmarinvar.a
PATTERNS = target/patterns/libfulmarinvar.a
PLANNER = target/bin/planner
BY_TRIAL = target/bin/by_trial
TRIALS = target/bin/trials
PROVED := $(shell find crates -name '*.rt' -o -name '*.antt') crates.txt

# need TOOL: says what is missing
need = command -v $(1) > /dev/null || { echo "$(1) is missing: it has to be on the PATH" >&2; exit 1; }

.PHONY: plan try test check archive programs bench record sign trial skipped levels loads beside patterns climb soak install uninstall

plan: $(PLANNER)
	@$(PLANNER) < $(SHEET)

try: $(BY_TRIAL)
	@$(BY_TRIAL) < $(SHEET)

test:
	@bash .ci/run

# Proves what has changed since the last check: the quick form, not the verdict.
check:
	@$(call need,rt)
	@rt all check

programs: $(PLANNER) $(BY_TRIAL) $(TRIALS)

# verdict NAME: the verdict on a crate, which stays in target/log
verdict = mkdir -p target/log && (cd crates/$(1) && rt check) > target/log/$(1).out 2>&1 || { cat target/log/$(1).out >&2; exit 1; }

$(PLANNER) $(BY_TRIAL) $(TRIALS): target/bin/%: $(PROVED)
	@$(call need,rt)
	@echo "proving and building $*: some minutes the first time" >&2
	@$(call verdict,$*)
	@cd crates/$* && rt run < /dev/null > out/first 2>&1 || { cat out/first >&2; exit 1; }
	@mkdir -p target/bin
	@cp crates/$*/out/$* $@

archive: $(LIB)

$(LIB): $(PROVED)
	@$(call need,rt)
	@echo "proving and building the library: some minutes the first time" >&2
	@$(call verdict,fulmarinvar)
	@cd crates/fulmarinvar && rt lib >&2
	@mkdir -p target/staticlib
	@cp crates/fulmarinvar/out/libfulmarinvar.a $@

BENCH = cargo run --release --offline --quiet --manifest-path bench/Cargo.toml --

# Times of crews and spare counts beside a hand-written search, then beside MiniSat, clingo and SAT4J, as far as they are
# there, of jobs under work, of crews by trial, of sheets with skipped steps, of sheets with other levels, and of sheets with
# rules of kind 5; the tables, and target/measured.csv, peers.csv, sign.csv, trial.csv, skipped.csv, levels.csv and loads.csv.
bench: $(LIB)
	@$(call need,cargo)
	@$(BENCH) measure target/measured.csv
	@$(BENCH) peers target/peers.csv
	@$(BENCH) sign target/sign.csv
	@$(BENCH) trial target/trial.csv
	@$(BENCH) skipped target/skipped.csv
	@$(BENCH) levels target/levels.csv
	@$(BENCH) loads target/loads.csv

# The same into bench/recorded, and what docs/BENCHMARKS.md shows of it.
record: $(LIB)
	@$(call need,cargo)
	@$(call need,python3)
	@mkdir -p bench/recorded
	@$(BENCH) measure bench/recorded/measured.csv
	@$(BENCH) peers bench/recorded/peers.csv
	@$(BENCH) sign bench/recorded/sign.csv
	@$(BENCH) trial bench/recorded/trial.csv
	@$(BENCH) skipped bench/recorded/skipped.csv
	@$(BENCH) levels bench/recorded/levels.csv
	@$(BENCH) loads bench/recorded/loads.csv
	@python3 bench/plot --into docs/BENCHMARKS.md

# Jobs under work alone: openings beside the crew call, signings beside the question whether a plan exists. The times go to
# OUT.
sign: $(LIB)
	@$(call need,cargo)
	@$(BENCH) sign $(or $(OUT),target/sign.csv)

# Crews by trial alone, beside the crew call and beside a hand-written brute force. The times go to OUT.
trial: $(LIB)
	@$(call need,cargo)
	@$(BENCH) trial $(or $(OUT),target/trial.csv)

# Crews and spare counts of practice sheets with a third of their steps skipped, beside the sheets without these steps. The
# times go to OUT.
skipped: $(LIB)
	@$(call need,cargo)
	@$(BENCH) skipped $(or $(OUT),target/skipped.csv)

# Crews and spare counts of practice sheets with one, two and three class levels, beside a hand-written search. The times go to
# OUT.
levels: $(LIB)
	@$(call need,cargo)
	@$(BENCH) levels $(or $(OUT),target/levels.csv)

# Crews and spare counts of sheets with rules of kind 5, beside a hand-written search. The times go to OUT.
loads: $(LIB)
	@$(call need,cargo)
	@$(BENCH) loads $(or $(OUT),target/loads.csv)

# Crews and spare counts of the library beside those of another archive of it, OTHER, on practice and hard sheets: the
# answers have to be the same. The times go to OUT.
beside: $(LIB)
	@$(call need,cargo)
	@test -n "$(OTHER)" || { echo "name the other archive: make beside OTHER=path/to/libfulmarinvar.a" >&2; exit 1; }
	@FULMARINVAR_OTHER=$(abspath $(OTHER)) $(BENCH) beside $(or $(OUT),target/beside.csv)

# The library without its search over people, to be set beside the whole: make beside OTHER=target/patterns/libfulmarinvar.a
patterns: $(PATTERNS)

$(PATTERNS): $(PROVED) bench/patterns
	@$(call need,rt)
	@echo "proving and building the library without its search over people: some minutes" >&2
	@bash bench/patterns >&2

# Looks for sheets that make the planner slow, for SECONDS seconds, from SEED on; the worst go to target/hard.
climb: $(LIB)
	@$(call need,cargo)
	@$(BENCH) climb target/hard --seconds $(or $(SECONDS),300) --seed $(or $(SEED),1)

# Random sheets against the brute force for as long as one likes, or with RUN=histories jobs under work; the seed is printed.
soak: $(LIB)
	@$(call need,cargo)
	@cargo run --release --offline --manifest-path tests/Cargo.toml --features library --bin $(or $(RUN),compare) -- soak $(SEED)

install: $(LIB) $(PLANNER) $(BY_TRIAL)
	install -D -m 644 include/fulmarinvar.h $(DESTDIR)$(PREFIX)/include/fulmarinvar.h
	install -D -m 644 $(LIB) $(DESTDIR)$(PREFIX)/lib/libfulmarinvar.a
	install -D -m 755 $(PLANNER) $(DESTDIR)$(PREFIX)/bin/fulmarinvar-planner
	install -D -m 755 $(BY_TRIAL) $(DESTDIR)$(PREFIX)/bin/fulmarinvar-by-trial
	install -d $(DESTDIR)$(PREFIX)/lib/pkgconfig
	sed 's|@PREFIX@|$(PREFIX)|' include/fulmarinvar.pc.in > $(DESTDIR)$(PREFIX)/lib/pkgconfig/fulmarinvar.pc

uninstall:
	rm -f $(DESTDIR)$(PREFIX)/include/fulmarinvar.h $(DESTDIR)$(PREFIX)/lib/libfulmarinvar.a
	rm -f $(DESTDIR)$(PREFIX)/bin/fulmarinvar-planner $(DESTDIR)$(PREFIX)/bin/fulmarinvar-by-trial
	rm -f $(DESTDIR)$(PREFIX)/lib/pkgconfig/fulmarinvar.pc
