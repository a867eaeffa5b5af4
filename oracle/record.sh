#!/usr/bin/env bash
# Records the sample that the program batches is held to: the jobs, and the lines that the oracle gives them.
set -eu
cd "$(dirname "$0")"
cargo build --release --offline --bin record
room=$(mktemp -d)
trap 'rm -rf "$room"' EXIT
./target/release/record --seed 1 --jobs "$room/jobs" --lines "$room/lines"
../tests/batches.py --recorded "$room/jobs" "$room/lines"
