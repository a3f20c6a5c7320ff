# `make run` shows a session, and the image that it leaves, by the proved programs where there are some and else by an unproved build; `make build` makes them, the door and the daemon; `make test` is the gate (.ci/run: the pages against the code, then all proofs, edits, tests and programs); `make bench` measures and writes docs/BENCH.md (or some of it: make bench names="calls daemon"); `make trials` tries what runs against what make build left, each trial within its time.
# `make start` starts the daemon with its log in a folder of this machine (tools/start), until Ctrl-C; `make demo` does so in a folder of its own, asks it by tools/client, kills it while a client writes, and starts it again; both want what make build makes.
# `make cluster` starts three members of etcd and two daemons over them, kills what leads, and sees that nothing answered is lost; it wants etcd and what make build makes.
# `make edits` tries the edits of edits/ (or those of some crates: make edits crates="kr_change kr_wire").
.PHONY: run start demo cluster build test edits bench trials tools

tools:
	@command -v rt >/dev/null 2>&1 || { echo "rt, the command of the Rattle toolchain, isn't on the PATH: install the toolchain and run this again" >&2; exit 127; }

run: tools
	@tools/run

start:
	@tools/start

demo:
	@tools/demo

cluster:
	@tools/quorum/cluster

build: tools
	@tools/build

test: tools
	@.ci/run

edits: tools
	@tools/check/edits $(crates)

bench: tools
	@tools/bench/all $(names)

trials:
	@tools/trials/all $(names)
