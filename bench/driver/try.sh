#!/usr/bin/env bash
# Builds the driver and has it answer the calls of worked.txt with each of the two solvers; every line has a call and the answer that
# was worked out by hand. A name in capitals stands for the bytes of a sample in examples/, KIND for the solver and OTHER for the
# other one.
set -euo pipefail
cd "$(dirname "$0")"
driver=$(./build.sh | tail -n 1)

# sample NAME FILE: the words that have sed write the bytes of a sample in the place of its name
sample() {
    echo "s/ $1\\b/ $(od -An -v -tx1 "../../examples/$2" | tr -d ' \n')/"
}

names=(-e "$(sample A a.case)" -e "$(sample B b.case)" -e "$(sample C c.case)" -e "$(sample THREE three.case)"
    -e "$(sample DAMAGED damaged.case)" -e "$(sample CANDIDATES c.candidates)")
for kind in p c; do
    other=$(tr pc cp <<<"$kind")
    diff <(sed 's/.* => //' worked.txt) <(sed -e 's/ => .*//' -e "s/KIND/$kind/" -e "s/OTHER/$other/" "${names[@]}" worked.txt | "$driver")
done
echo "$(wc -l <worked.txt) calls with each solver, answered as worked out"
