#!/usr/bin/env bash
# README's table of what each call costs is what counts.txt says, in whole instructions: shows the rows that differ, as README has them and as it
# should, and fails if there are any.
set -euo pipefail
here=$(cd "$(dirname "$0")" && pwd)
head='| Call, random input | Instructions | Stack |'

# the rows from the table's head to the line that ends it
has() { awk -v head="$head" '$0 == head { inside = 1 } !/^\|/ { inside = 0 } inside' "$here/../README.md"; }
should() {
  printf '%s\n|---|---|---|\n' "$head"
  awk -F'\t' '!/^#/ { printf "| %s | %d | %s |\n", $1, $2 + 0.5, $3 }' "$here/counts.txt"
}

diff -U0 --label README.md --label bench/counts.txt <(has) <(should) || { echo "readme.sh: README's table is not what bench/counts.txt says" && exit 1; }
