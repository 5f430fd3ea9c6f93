# Thin names for the commands of the kit. README.md says what each costs.
PREFIX ?= /usr/local

.PHONY: demo build install test bench fuzz picture

demo: ## runs an example script by the program as it stands, before any proof
	@cd crates/rdr && rt try -- both < ../../examples/open_read_close.script

build: ## proves the program and all below it, and leaves it at bin/rdr
	cd crates/rdr && rt run -- both < /dev/null
	mkdir -p bin && cp crates/rdr/out/rdr bin/rdr

install: ## puts the built program and its page under PREFIX
	@test -x bin/rdr || { echo 'first: make build' >&2; exit 1; }
	install -D -m 755 bin/rdr '$(DESTDIR)$(PREFIX)/bin/rdr'
	install -D -m 644 docs/rdr.1 '$(DESTDIR)$(PREFIX)/share/man/man1/rdr.1'

test: ## the gate: every proof, the edits that must fail, the tests, the programs
	rt ci

fuzz: ## tries to break the built program for a minute or two: docs/ROBUSTNESS.md
	python3 tools/sessions.py bin/rdr
	python3 tools/sessions.py --folders bin/rdr
	python3 tools/mutate.py --sessions 2000
	python3 tools/many.py client --sessions 5000
	python3 tools/many.py host --sessions 5000
	test ! -x bin/many_in_memory || { python3 tools/many_in_memory.py --turns client && python3 tools/many_in_memory.py --turns host; }
	python3 tools/failing.py --only both
	python3 tools/kills.py --sides --sessions 300
	python3 tools/kills.py --sessions 50
	python3 tools/limits.py
	python3 tools/share.py --seconds 5

picture: ## draws docs/session.svg anew by the built program, and tries the script that draws
	tools/draw-recording examples/read_removal_wait.rec > session.svg && mv session.svg docs/session.svg
	python3 tools/draw_recording_test.py bin/rdr

bench: ## what is measured, and how: bench/README.md
	bench/run
