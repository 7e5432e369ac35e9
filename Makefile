.PHONY: test try-test replay serve install uninstall deb

PROGRAM = crates/trace_collector_program

# A test of the program that the gate built. What it says is printed only where it fails.
tried = said=$$(python3 tests/$(1) $(PROGRAM)/out/trace_collector_program $(2)) || { echo "$$said"; exit 1; }

# The gate: the checks of the text, then the proofs of all crates and tests, the edits that must be refused, the tests,
# the programs, and the scripts over the built program. The cost of each crate goes to standard error; where it can't be
# printed, a line says so and the gate goes on.
test: checks
	@command -v rt > /dev/null || { echo 'make: there is no command rt: docs/OPERATING.md names the toolchain' >&2; exit 1; }
	@python3 tests/costs.py record -- rt ci
	-@python3 tests/costs.py >&2
	@$(call tried,program.py)
	@$(call tried,stories.py)
	@$(call tried,script_lines.py)
	@$(call tried,random_scripts.py)
	@$(call tried,random_settings.py)
	@$(call tried,random_bodies.py)
	@$(call tried,service.py)
	@$(call tried,package.py)
	@$(call tried,replay/steady.py,100000)
	@$(call tried,replay/lives.py,2000)

# Minutes: the tests of all crates, and scripts over the program, without proofs.
try-test:
	@command -v rt > /dev/null || { echo 'make: there is no command rt: docs/OPERATING.md names the toolchain' >&2; exit 1; }
	@python3 tests/try_test.py

# Checks the text in seconds, with Python alone: quoted definitions, comments of definitions, places that make an
# allocation failure, values that are forgotten, traits written by hand, long lines, and the pages.
.PHONY: checks
checks:
	@python3 tests/quotes.py
	@python3 tests/refusals.py
	@python3 tests/forgotten.py
	@python3 tests/by_hand.py
	@python3 tests/widths.py
	@python3 tests/pages.py

# Builds the program, makes a script of a body that is stored as a file, which is posted
# before a worker asks for a job twice, one millisecond too early and in time, and replays it.
# Then a story whose traces are kept, dropped, batched, sent again and reported.
replay: trace_collector
	@echo
	@echo 'The script: a body is posted, and a worker asks for a job before its second of waiting is over, and then.'
	@{ printf 'post a 0 %s\n' "$$(od -An -v -tx1 $(BODY) | tr -d ' \n')"; echo 'turn 0 999'; echo 'turn 0 1000'; } > $(SCRIPT)
	@echo '$$ { printf '\''post a 0 %s\n'\'' "$$(od -An -v -tx1 $(BODY) | tr -d '\'' \n'\'')"; echo turn 0 999; echo turn 0 1000; } > $(SCRIPT)'
	@echo '$$ cat $(SCRIPT)'
	@cat $(SCRIPT)
	@echo
	@echo 'Its answers: the reply to the post, no job yet, and a job whose payload goes to the back end.'
	@echo '$$ ./trace_collector replay $(PROGRAM)/data/settings.toml < $(SCRIPT)'
	@./trace_collector replay $(PROGRAM)/data/settings.toml < $(SCRIPT)
	@echo
	@echo 'A story: traces are kept or dropped, batched, sent again to a busy back end, and counted. Under each line of'
	@echo 'the script (>) is its answer, both cut short.'
	@echo '$$ ./trace_collector replay $(STORY).toml < $(STORY).script'
	@./trace_collector replay $(STORY).toml < $(STORY).script | awk 'NR == FNR { said[NR] = $$0; next } \
	    /^#|^$$/ { print; next } { print "> " substr($$0, 1, 78); print "  " substr(said[++n], 1, 218) }' - $(STORY).script

# Builds the program, starts it as a service with two tenants and a back end for each, and shows
# what arrives there and what is counted.
serve: trace_collector
	@python3 examples/serve.py

# Shows the service in minutes, by a program that is built without proofs and checked at run time, until Ctrl-C. With ARGS it
# runs a command of that program instead, as `make preview ARGS="check my.toml"`.
.PHONY: preview
preview:
	@python3 examples/preview.py $(ARGS)

BODY = examples/trace.pb
SCRIPT = out/script
STORY = examples/story

# Proves and builds the program and the crates below it, and says how far it is; nothing where nothing has changed.
.PHONY: trace_collector
trace_collector:
	@python3 tests/build.py $(notdir $(PROGRAM)) ./trace_collector

# What `make trace_collector` built, where it goes, and where settings are.
BUILT = trace_collector
PREFIX = /usr/local
ETC = /etc
BIN = $(PREFIX)/bin
MAN = $(PREFIX)/share/man/man1
UNITS = $(PREFIX)/lib/systemd/system
LIBEXEC = $(PREFIX)/libexec/nimchaes
DOCUMENTS = $(PREFIX)/share/doc/nimchaes
EXAMPLES = $(DOCUMENTS)/examples
PAGES = $(DOCUMENTS)/docs
PICTURES = $(PAGES)/pictures

# What keeps its own name in these folders.
EXAMPLES_TO_READ = trace.pb prometheus.yml alerts.yml nginx.conf
OPERATORS_PAGES = $(addsuffix .md,OPERATING RUNBOOK SIZING SETTINGS HTTP SCRIPT)
OPERATORS_PICTURES = admin-light.png admin-dark.png admin-narrow.png

# Puts the program that is built, its manual page, its unit for systemd with what asks it to drain, examples to start from and
# operators' pages below DESTDIR. It proves and builds nothing, so that root needs no toolchain.
install:
	@test -x $(BUILT) || { echo 'make: $(BUILT) is not there yet: make trace_collector builds it' >&2; exit 1; }
	install -d $(addprefix $(DESTDIR),$(BIN) $(MAN) $(UNITS) $(LIBEXEC) $(EXAMPLES) $(PAGES) $(PICTURES))
	install -m 755 $(BUILT) $(DESTDIR)$(BIN)/trace_collector
	install -m 755 packaging/drain $(DESTDIR)$(LIBEXEC)
	python3 packaging/manual.py $(abspath $(BUILT)) > $(DESTDIR)$(MAN)/trace_collector.1
	sed -e 's|@BIN@|$(BIN)|g' -e 's|@LIBEXEC@|$(LIBEXEC)|g' -e 's|@ETC@|$(ETC)|g' packaging/nimchaes.service.in \
	  > $(DESTDIR)$(UNITS)/nimchaes.service
	chmod 644 $(DESTDIR)$(MAN)/trace_collector.1 $(DESTDIR)$(UNITS)/nimchaes.service
	install -m 644 examples/start.toml $(DESTDIR)$(EXAMPLES)/settings.toml
	install -m 644 $(addprefix examples/,$(EXAMPLES_TO_READ)) $(DESTDIR)$(EXAMPLES)
	install -m 755 examples/collector-run $(DESTDIR)$(EXAMPLES)
	install -m 644 $(addprefix docs/,$(OPERATORS_PAGES)) $(DESTDIR)$(PAGES)
	install -m 644 $(addprefix docs/pictures/,$(OPERATORS_PICTURES)) $(DESTDIR)$(PICTURES)

# Removes these files, and of the folders those that are this program's alone and then empty. Settings, and whatever else an
# operator put somewhere, stay. Its variables are those of the `install` before.
uninstall:
	rm -f $(addprefix $(DESTDIR),$(BIN)/trace_collector $(MAN)/trace_collector.1 $(UNITS)/nimchaes.service $(LIBEXEC)/drain)
	rm -f $(addprefix $(DESTDIR)$(EXAMPLES)/,settings.toml $(EXAMPLES_TO_READ) collector-run)
	rm -f $(addprefix $(DESTDIR)$(PAGES)/,$(OPERATORS_PAGES)) $(addprefix $(DESTDIR)$(PICTURES)/,$(OPERATORS_PICTURES))
	for folder in $(addprefix $(DESTDIR),$(LIBEXEC) $(PICTURES) $(PAGES) $(EXAMPLES) $(DOCUMENTS)); do \
	  test ! -d $$folder || rmdir --ignore-fail-on-non-empty $$folder; done

# A package for Debian of all that, in out/.
deb: trace_collector
	@python3 packaging/deb.py $(BUILT) out
