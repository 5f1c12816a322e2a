#!/usr/bin/env bash
# Installs the peers that the benchmark compares with, from Debian's packages: PicoSAT and MiniSat with their libraries,
# and ABC, which judges circuits.
set -eu
apt-get update -qq
apt-get install -y -qq g++ picosat minisat berkeley-abc
