#!/bin/sh
# Prints how long an ask of each judge takes: bench/judges.sh [ASKS]. It is no part of the gate.
# The program's source is judges.txt. It is proved and built as a crate of a copy of the repository, which is removed afterwards.
set -eu
repository=$(cd "$(dirname "$0")/.." && pwd)
asks=${1:-20000000}
work=$(mktemp -d)
trap 'rm -rf "$work"' EXIT
trap 'exit 1' HUP INT TERM
cp "$repository/crates.txt" "$work"
(cd "$repository" && tar -cf - --exclude=out crates) | tar -xf - -C "$work"
mkdir -p "$work/crates/judge_bench/src"
cp "$repository/bench/judges.txt" "$work/crates/judge_bench/src/main.rt"
echo 'judge_bench: plane reading orientation judge anyhow' >> "$work/crates.txt"
cd "$work/crates/judge_bench"
if ! rt run -- "$asks" 2> "$work/log"; then
    cat "$work/log" >&2
    exit 1
fi
