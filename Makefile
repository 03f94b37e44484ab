# make demo     builds the programs, does two jobs on the C files of examples/hello and of examples/options, sends the daemon's
#               program a stored request, and builds the C project of examples/real from the texts of its jobs
# make check    the gate: all proofs, edits that must fail, tests and programs; then each header of the host is lexed twice and
#               preprocessed as gcc does, walks in random trees are compared with the host's own, conditions with gcc's, the
#               analysis of random trees with a model, and the programs are tried with what is wrong, from the list to a
#               daemon behind a socket; the scripts for users, the wrapper, the man pages and the installation too
# make bench    measures the programs, most beside gcc and tcc: docs/PERFORMANCE.md
# make real REAL=DIR [WORDS='WORD..']
#               builds the C project in DIR through tools/mow-cc, and tells which jobs were remote: tools/real.sh
# make install  puts the programs, scripts, man pages, completion and unit files below PREFIX, with DESTDIR in front; programs
#               that aren't built are built
# make uninstall  removes just these
.PHONY: demo check bench real install uninstall

PREFIX ?= /usr/local
DESTDIR ?=
install uninstall: export PREFIX := $(PREFIX)
install uninstall: export DESTDIR := $(DESTDIR)

demo:
	@rm -rf out/demo && mkdir -p out/demo
	@cd crates/pump_program && rt run -- --version > ../../out/demo/build.log 2>&1 || { cat ../../out/demo/build.log; exit 1; }
	@echo '=== a job that the daemon does'
	@printf '%s main.c\n' "$(CURDIR)/examples/hello" > out/demo/list
	@sh tools/demo.sh main.i
	@echo '=== a job with options'
	@printf '%s src/main.c -O2 -I include -iquote local -isystem system -include config.h -o app/main.i\n' \
	    "$(CURDIR)/examples/options" > out/demo/list
	@sh tools/demo.sh app/main.i
	@echo '=== a request to the daemon'
	@cd crates/pumpd && rt run -- --version > ../../out/demo/build.log 2>&1 || { cat ../../out/demo/build.log; exit 1; }
	@sh tools/demo-daemon.sh
	@echo '=== the jobs of a C project'
	@sh tools/demo-real.sh

check:
	@sh .ci/run
	@sh tools/check-headers.sh
	@sh tools/check-walks.sh
	@python3 tools/check-conditions.py crates/condition_examples/stdout
	@sh tools/check-analysis.sh
	@python3 -B tools/check-orders.py crates/pump_program/out/pump_program 300
	@sh tools/check-programs.sh
	@python3 tools/check-daemon-socket.py crates/pumpd/out/pumpd
	@sh tools/check-man.sh
	@sh tools/check-install.sh
	@sh tools/check-scripts.sh
	@sh tools/check-wrapper.sh

bench:
	@sh tools/bench.sh

real:
	@sh tools/real.sh "$(REAL)" $(WORDS)

install:
	@sh tools/install.sh install

uninstall:
	@sh tools/install.sh uninstall
