.PHONY: program demo serve served page packed play try host page-test test quick-test edits check bench dist clients-test

SHELL := bash
.SHELLFLAGS := -o pipefail -c
SERVER := crates/board_server/out/board_server

# Proves the program and each crate that it stands on, as the gate does, and builds it. What was proved before on this machine is not proved again.
program:
	@echo "Proves board_server and the crates below it, and builds it. README says how long that takes the first time."
	@checks/prove_program.py board_server

# Plays the example matches and worlds, and prints their transcripts.
demo: program
	@for script in examples/*.script; do $(SERVER) script <$$script || exit; done
	@for world in examples/*.world; do $(SERVER) world <$$world || exit; done

# Serves matches at an address, to so many sessions at once, until a million sessions are over.
LISTEN ?= 127.0.0.1:7000
LINKS ?= 256
serve: program
	@$(SERVER) serve --listen $(LISTEN) --links $(LINKS)

# The gate: the lints, every proof with its edits, tests and programs, and the quick tests.
test:
	@.ci/run

# Builds everything without a proof, and runs every test, case, example and recorded run. It proves nothing.
quick-test:
	@checks/quick_test.py

# Tries the edits of edits/, or those of the crates NAMES. The prover has to refuse each.
edits:
	@checks/try_edits.py $(NAMES)

# The checks of bench/ and of the page, at a server that is built without a proof.
check:
	@checks/check.py

# Times the program on long scripts, beside what JSON alone costs in Node.
bench: program
	@bench/run.sh $(SERVER)

# Plays many actions against a served port, and compares what each player was sent with a script's run; then each game by the example's client;
# and then kills a server that keeps its rooms, many times, also while it begins their files anew, and looks at what is left.
served: program
	@bench/served.py same $(SERVER) 20000
	@bench/clients.py $(SERVER)
	@bench/serve_kills.py $(SERVER) 20
	@bench/anew_kills.py $(SERVER) 50

# Proves the client that guesses ahead on the page, and makes WebAssembly of it for browsers.
page: page/page_program.wasm

page/page_program.wasm: $(wildcard page/wasm/*) crates.txt $(shell find crates -path '*/src/*' -name '*.rt')
	@checks/prove_program.py page_program --module page_program
	@crates/page_program/out/page_program <crates/page_program/stdin | cmp - crates/page_program/stdout
	@page/wasm/compile.sh crates/page_program/out/page_program.bc $@

# Packs the page, with the client that guesses ahead where it was made, into the few files of out/page that are served.
packed:
	@page/build.py >/dev/null

# Makes an archive and a Debian package of the proved program, the packed page, the clients and the documents.
dist: program page
	@deploy/dist.py

# Plays by the clients against the program, or SARPUNTXE_PROGRAM, and checks the schema of lines. It wants node.
clients-test:
	@clients/check_lines.py
	@cd clients/js && npm test
	@python3 clients/python/test_sarpuntxe.py

# Serves matches over WebSockets at an address, and the page, until it is stopped. Bots sit at a first match, and answer after so many seconds.
BOTS ?= tic-tac-toe
SEATS ?= 2
PACE ?= 3
PLAY_LINKS ?= 32
SERVES := --ws --page out/page --links $(PLAY_LINKS) --bots $(BOTS) --seats $(SEATS) --pace $(PACE)
play: program page
	@page/build.py >/dev/null
	@echo "Play at http://$(LISTEN)/"
	@echo "$(SEATS) bots wait in match 0-1, $(BOTS): ask one of them for its seat, and play against the other."
	@$(SERVER) serve --listen $(LISTEN) $(SERVES)

# The same in a minute or two, and later at once, by a program that is built without a proof; without page_program.wasm the page guesses nothing ahead.
try: packed
	@checks/try_server.py $(LISTEN) $(SERVES)

# Serves an evening with friends: the page and 64 matches, kept in ROOMS, at all addresses of this machine, which it prints.
# BOTS=GAME has bots at SEATS seats of a first match, and then nothing is kept. PROVED=no takes a server that is built in a minute or two.
PORT ?= 7000
ROOMS ?= rooms
host: $(if $(filter no,$(PROVED)),,program page)
	@page/build.py >/dev/null
	@SARPUNTXE_ROOMS="$(abspath $(ROOMS))" SARPUNTXE_BOTS="$(if $(filter file,$(origin BOTS)),,$(BOTS) $(SEATS))" \
	  SARPUNTXE_UNPROVED="$(filter no,$(PROVED))" deploy/host.sh $(PORT)

# Plays on the page in headless Chromium, against the program, or against SARPUNTXE_PROGRAM or SARPUNTXE_SERVER. It wants node and chromium.
page-test: $(if $(SARPUNTXE_PROGRAM)$(SARPUNTXE_SERVER),,program) page
	@node --experimental-websocket --no-warnings page/test/play.mjs $(PLAYS)
