# `make demo` runs the program's commands on files of examples/; `make test` runs the gate and the checks.
.PHONY: demo test program

program := crates/cite_prog/out/cite_prog

demo: program
	@echo 'select depth 10 20 < examples/stations.csv'
	@$(program) archive select depth 10 20 < examples/stations.csv
	@folder=$$(mktemp -d) && { \
		echo "init 10.5072 Lab 'Rey, A.' Depths sid:int depth:int" && \
		$(program) $$folder/new init 10.5072 Lab 'Rey, A.' Depths sid:int depth:int && \
		echo 'session < examples/session.http (over that archive)' && \
		$(program) $$folder/new session < examples/session.http > $$folder/answers && \
		scripts/show-answers < $$folder/answers; }; \
		status=$$?; rm -rf "$$folder"; exit $$status
	@echo 'verify (of a copy of examples/depths.archive)'
	@folder=$$(mktemp -d) && cp examples/depths.archive $$folder && $(program) $$folder/depths.archive verify; \
		status=$$?; rm -rf "$$folder"; exit $$status

# Proves the program and what it stands on, and builds it.
program:
	@scripts/build-program

test:
	.ci/run
