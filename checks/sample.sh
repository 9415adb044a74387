#!/bin/sh
# Compares what PROGRAM prints of the sample mission with the texts beside it: checks/sample.sh PROGRAM
set -eu
program=$(realpath "$1")
replies=$(mktemp)
trap 'rm -f "$replies"' EXIT
cd "$(dirname "$0")/../samples/suihtal_1"
for workers in 1 4 16; do
  "$program" decode mib feed --workers "$workers" | cmp - decoded.txt
  "$program" live mib feed desk --workers "$workers" 2>"$replies" | cmp - live.txt
  cmp "$replies" replies.txt
done
echo "the sample mission is decoded as its texts say, alone and beside its desk, by 1, 4 and 16 workers"
