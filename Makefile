# `make run` proves and builds the program and replays the first login; `make test` is the gate.
.PHONY: run test tools

run: tools
	cd crates/login_desk && rt run -- replay < ../../examples/first-login.script

test: tools
	bash .ci/run

tools:
	@command -v rt >/dev/null || { echo "The command rt of the Rattle toolchain isn't on the PATH."; exit 1; }
