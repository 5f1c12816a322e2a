#!/usr/bin/env bash
# Judges N random jobs (100000 where none is said) by brute force and by the documents, and compares what the program, the calls for C
# and the driver of call lists answer (docs/DIFFERING.md). `--seed S` draws other jobs, `--threads T` takes other than all cores;
# with `--mutate` each answer is judged once more with an error planted in it, and the last line says how many were noted.
set -euo pipefail
cd "$(dirname "$0")/.."
mkdir -p target/bench
log=$PWD/target/bench/differ.log
kit=$(dirname "$(rt doc)")

# quietly WORD..: runs a command that prints to the log, whose end is shown where it fails
quietly() {
    "$@" >"$log" 2>&1 || { tail -n 20 "$log" >&2; exit 1; }
}

export DIFFER_LINK=
for crate in judgements descents exported; do
    (cd "crates/$crate" && quietly rt lib)
    DIFFER_LINK+="$PWD/crates/$crate/out/lib$crate.a "
done
DIFFER_LINK+=$kit/c/liblibc_c.a
(cd crates/interlock && quietly rt run <../../examples/a.case)
driver=$(bench/driver/build.sh | tail -n 1)
export CARGO_TARGET_DIR=$PWD/target/bench/differ
(cd bench/differ && quietly cargo build --release --offline)
exec "$CARGO_TARGET_DIR/release/differ" --program crates/interlock/out/interlock --driver "$driver" "$@"
