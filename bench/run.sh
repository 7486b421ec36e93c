#!/usr/bin/env bash
# Compares the speed of the proved survey with that of the plain C++ beside this file, on the same sheets.
#
#   bench/run.sh [REPEATS] [ROUNDS]
#
# Each round runs both programs, one after the other, on every network, with so many surveys of each
# (200 where none is said). The table has the best time of all rounds (3 where none is said).
# CXX names the C++ compiler, CXXFLAGS its options in place of -O2. It fails where the two programs do
# not find the same.
set -euo pipefail
cd "$(dirname "$0")/.."

repeats=${1:-200}
rounds=${2:-3}
for number in "$repeats" "$rounds"; do
    if ! [[ $number =~ ^[1-9][0-9]{0,6}$ ]]; then
        echo "usage: bench/run.sh [REPEATS] [ROUNDS]" >&2
        exit 2
    fi
done

work=$(mktemp -d)
trap 'rm -rf "$work"' EXIT

(cd crates/benchmark && rt run) >"$work/check" 2>&1 || { cat "$work/check" && exit 1; }
# shellcheck disable=SC2086
"${CXX:-g++}" -std=c++17 ${CXXFLAGS:--O2} -o "$work/survey" bench/survey.cpp
crates/benchmark/out/benchmark write "$work"

for round in $(seq "$rounds"); do
    crates/benchmark/out/benchmark "$repeats" >"$work/proved.$round"
    "$work/survey" "$repeats" "$work"/*.sheet >"$work/plain.$round"
    if ! diff <(grep checksum "$work/proved.$round" | sort) <(grep checksum "$work/plain.$round" | sort); then
        echo "the two programs do not find the same" >&2
        exit 1
    fi
done

cd "$work"
awk '
    FNR == 1 { side = FILENAME; sub(/[.].*/, "", side) }
    / checksum / && !($1 in found) { names[++count] = $1; found[$1] = $3 " " $5 " " $7 " " $9 " " $11 }
    / ms for one survey$/ && (!((side, $1) in best) || $2 < best[side, $1]) { best[side, $1] = $2 }
    END {
        printf "%-8s %6s %6s %6s %6s %6s %12s %12s %7s\n", "network", "sites", "links", "pairs", "cuts", "none", "proved, ms", "C++, ms", "ratio"
        for (i = 1; i <= count; i++) {
            name = names[i]
            split(found[name], n, " ")
            proved = best["proved", name]
            plain = best["plain", name]
            sub(/:/, "", name)
            printf "%-8s %6d %6d %6d %6d %6d %12.4f %12.4f %7.2f\n", name, n[1], n[2], n[3], n[4], n[5], proved, plain, proved / plain
        }
    }
' proved.* plain.*
