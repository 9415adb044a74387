#!/usr/bin/env bash
# Builds and runs the example of samples/library in a clone of its own, without proofs, and compares what it prints.
set -eu
top=$(cd "$(dirname "$0")/.." && pwd)
room=$(mktemp -d)
trap 'rm -rf "$room"' EXIT
git clone -q "$top" "$room/clone"
cd "$room/clone"
sed -n '/^```sh$/,/^```$/p' samples/library/README.md | sed '1d;$d' > "$room/script"
bash -e "$room/script" > "$room/out" 2> "$room/said" || { tail -n 3 "$room/said"; exit 1; }
printf 'PKT 1 APID 100 COUNT 0 TYPE 3/25 SPID 4001\n  TEMP 2000\nPKT 2 APID 100 COUNT 1 TYPE 3/25 SPID 4001\n  TEMP 2001\n' > "$room/wanted"
grep -x -F -f "$room/wanted" "$room/out" | cmp - "$room/wanted" && echo "the example prints its records"
