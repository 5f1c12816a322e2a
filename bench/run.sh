#!/usr/bin/env bash
# Builds the solvers as a static library and the benchmark over it, and prints its table of times and ratios.
# With `differ N`: asks N small random lists of both solvers and of PicoSAT instead.
# With `descents`: builds the descents as a static library and prints their table of questions, times and ratios instead.
# With `judge`: builds the judgements as a static library and prints their table of turns, questions, times and ratios instead; with
# `judge peers` without a library, so that nothing has to be proved. After either, `differ N` judges N small drawn circuits, and
# `write FOLDER` writes the cases.
set -eu
cd "$(dirname "$0")/.."
mkdir -p target/bench
log=$PWD/target/bench/lib.log
kit=$(dirname "$(rt doc)")

# link PROGRAM WORD..: the program from the sources and libraries given
link() {
    g++ -std=c++17 -O2 -Wall "${@:2}" -lpicosat -lminisat -o "target/bench/$1"
}

# build CRATE PROGRAM WORD..: the crate's static library, and the program over it from the sources and libraries given
build() {
    (cd "crates/$1" && rt lib >"$log" 2>&1) || { tail -n 20 "$log"; exit 1; }
    link "${@:2}" "crates/$1/out/lib$1.a" "$kit/c/liblibc_c.a"
}

if [ "${1-}" = descents ]; then
    build descents descents bench/descents.cpp bench/sifting.cpp bench/cases.cpp
    exec target/bench/descents
fi
if [ "${1-}" = judge ]; then
    shift
    sources=(bench/judging.cpp bench/turning.cpp bench/circuits.cpp bench/cases.cpp)
    if [ "${1-}" = peers ]; then
        shift
        link judging -DWITHOUT_LIBRARY "${sources[@]}"
    else
        build judgements judging "${sources[@]}"
    fi
    exec target/bench/judging "$@"
fi
build exported bench bench/main.cpp bench/families.cpp bench/peers.cpp
exec target/bench/bench "$@"
