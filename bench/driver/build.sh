#!/usr/bin/env bash
# Builds the driver for lists of calls, and prints the path of its executable on the last line. Every function of it is proved
# to be safe and to end, under no contract; the library below it is proved as ever.
#
# The gate takes neither a .rt file nor a second crates.txt anywhere in the repository, not even where git ignores them. So the
# crates are copied to a folder outside, with one more crate, and built there. That folder may be removed at any time; while it stays,
# only what changed is proved again.
set -eu
cd "$(dirname "$0")/../.."
tree=${TMPDIR:-/tmp}/hokhnebi-driver-$(id -u)-$(pwd | cksum | cut -d ' ' -f 1)
crate=$tree/crates/driver
log=$tree/build.log

# all but what rt keeps is copied anew, by one build at a time
mkdir -p "$tree/crates" target/bench
exec 9>"$tree/lock"
flock 9
find "$tree/crates" -mindepth 2 -maxdepth 2 ! -name out -exec rm -rf {} +
tar -C crates --exclude='./*/out' --exclude='./*/must-fail' -cf - . | tar -C "$tree/crates" -xf -
cp crates.txt "$tree/"
echo 'driver: solver faults books counting propagating histories work anyhow hex' >>"$tree/crates.txt"
mkdir -p "$crate/src" "$crate/specs" "$crate/proofs"
touch "$crate/specs/Lib.antt" "$crate/proofs/Lib.antt"
for source in bench/driver/*.rt.in; do
    cp "$source" "$crate/src/$(basename "$source" .in)"
done

(cd "$crate" && rt run </dev/null >"$log" 2>&1) || {
    tail -n 20 "$log"
    exit 1
}
# the old one may be running
cp "$crate/out/driver" target/bench/driver.new
mv -f target/bench/driver.new target/bench/driver
echo "$PWD/target/bench/driver"
