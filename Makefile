# make run: builds the main program and runs it on the example that ships with it.
# make test: the whole gate.
.PHONY: run test

run:
	@mkdir -p crates/console/out
	@cd crates/console && { rt run -- vienna <stdin >/dev/null 2>out/said || { tail -n 20 out/said; exit 1; }; }
	@cd crates/console && out/console vienna <stdin

test:
	scripts/gate
