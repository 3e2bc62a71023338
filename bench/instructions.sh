#!/bin/sh
# Instructions a call, counted by valgrind's callgrind. Counts do not move with the machine's load; the loop around the calls and what the
# caller does with the answer are in them.
# instructions.sh [PART]    a table for the rows with PART in their name, by default those held against plain Rust: ours, the other, their ratio.
# Only on an x86-64 machine; bench/counts.sh counts inside the library, and on any machine.
set -eu
here=$(cd "$(dirname "$0")" && pwd)
[ "$(uname -m)" = x86_64 ] || { echo "instructions.sh: callgrind counts x86-64 programs on x86-64 machines only" >&2; exit 1; }
tab=$(printf '\t')
passes=2
cd "$here"
cargo build --release --quiet
program="${CARGO_TARGET_DIR:-$here/target}/release/hailgully_bench"

# Instructions of a whole run: the row's name, the side, the number of passes.
run() {
    valgrind --tool=callgrind --callgrind-out-file=/dev/null "$program" --instructions "$1" "$2" "$3" 2>&1 | sed -n 's/^.*Collected : *//p'
}

# Instructions of the passes alone. Both runs have command lines of one length, so that what comes before the passes is the same.
count() {
    echo $(($(run "$1" "$2" $passes) - $(run "$1" "$2" 0)))
}

case ${1:-} in
'') names=$("$program" --names | grep "${tab}plain Rust$tab") ;;
*) names=$("$program" --names --only "$1") ;;
esac
[ -n "$names" ] || { echo "instructions.sh: no such row" >&2; exit 1; }

printf '%-34s %8s %8s %7s  %s\n' 'instructions a call' ours other ratio against
echo "$names" | while IFS="$tab" read -r name against calls; do
    echo "$(count "$name" ours) $(count "$name" other)" | awk -v calls=$((passes * calls)) -v name="$name" -v against="$against" '{
        printf "%-34s %8.1f %8.1f %7.2f  %s\n", name, $1 / calls, $2 / calls, $1 / $2, against }'
done
