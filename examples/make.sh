#!/usr/bin/env bash
# Writes the sample cases and the list of candidates beside this script from their bytes in hexadecimal.
set -eu
cd "$(dirname "$0")"

write() {
    local name=$1 hex
    shift
    hex=$(printf '%s' "$*" | tr -d ' ')
    printf "$(printf '%s' "$hex" | sed 's/../\\x&/g')" > "$name"
}

#            n  m     counts            offsets           total
write a.case 0200 0000 0200 0400 0100 1200 1600 2200 2400 \
    0101 0103 \
    020241 020340 020243 020342 \
    0101
write b.case 0200 0000 0200 0200 0100 1200 1600 1c00 1e00 \
    0101 0103 \
    020241 020340 \
    0101
write c.case 0200 0000 0200 0400 0000 1200 1600 2200 2200 \
    0101 0103 \
    020241 020340 020043 020142
write three.case 0300 0200 0100 0100 0100 1200 1600 1c00 2000 \
    03000205 \
    050041438083 \
    03010304
write damaged.case 0300 0200 0100 0100 0100 1200 1600 1c00 2000 \
    03000005 \
    050041438083 \
    03010304
write c.candidates 0101 0103 0100
