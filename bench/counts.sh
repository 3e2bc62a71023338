#!/usr/bin/env bash
# What each call costs inside the library: instructions, as an emulator counts them one by one, and bytes of stack. Neither moves with the machine, its load
# or what stands around the calls, so the gate can hold them. The library calls nothing outside itself: its own instructions are all.
#
#     counts.sh            prints the counts
#     counts.sh --held     and fails where a call takes over a thirtieth more instructions, or more stack, than counts.txt says, or where a row is missing
#     counts.sh --write    and writes counts.txt anew: after a change whose reason stands in docs/DECISIONS.md; readme.sh then shows README's old rows
set -euo pipefail
here=$(cd "$(dirname "$0")" && pwd)
. "$here/../tests/x86.sh"
library=${HAILGULLY_LIB_DIR:-$here/../target/hailgully}
scratch=$(mktemp -d)
trap 'rm -rf "$scratch"' EXIT
case ${1:-} in '' | --held | --write) ;; *) echo "counts.sh: --held, --write or nothing" >&2; exit 2 ;; esac

if ! command -v qemu-x86_64 >/dev/null; then
  { apt-get update && apt-get install -y --no-install-recommends qemu-user; } >"$scratch/apt" 2>&1 || { tail -n 5 "$scratch/apt"; echo 'counts.sh: no emulator' >&2; exit 1; }
fi
step=-singlestep
if qemu-x86_64 --help | grep -q one-insn-per-tb; then step=-one-insn-per-tb; fi

"$CC" -O2 -Wall -Wextra -Werror -std=gnu99 -no-pie -I "$library" "$here/count.c" "$library/libhailgully.a" -o "$scratch/count"
# the library's functions, each as its address and its size in bytes
nm -f posix "$library/libhailgully.a" 2>/dev/null | awk '$2 ~ /^[Tt]$/ { print $1 }' | sort -u >"$scratch/names"
ranges=$(nm -f posix "$scratch/count" | awk 'NR == FNR { ours[$1]; next } ($1 in ours) && $4 != "" { printf "%s0x%s+0x%s", s, $3, $4; s = "," }' "$scratch/names" -)
[ -n "$ranges" ] || { echo 'counts.sh: the library has no functions' >&2; exit 1; }

# instructions inside the library of a whole run: the row and how many calls
run() {
  qemu-x86_64 "$step" -d exec,nochain -dfilter "$ranges" -D "$scratch/trace" "$scratch/count" "$1" "$2" >"$scratch/stack"
  grep -c '^Trace' "$scratch/trace" || true
}

"$scratch/count" --names >"$scratch/rows" 2>/dev/null || qemu-x86_64 "$scratch/count" --names >"$scratch/rows"
while IFS=$'\t' read -r row calls; do
  none=$(run "$row" 0)
  all=$(run "$row" "$calls")
  printf '%s\t%s\t%s\n' "$row" "$(awk -v n=$((all - none)) -v c="$calls" 'BEGIN { printf "%.1f", n / c }')" "$(cat "$scratch/stack")"
done <"$scratch/rows" >"$scratch/counts"
head='# What each call costs inside the library: instructions, and bytes of stack with the return address. bench/counts.sh --held holds them.'

case ${1:-} in
'') cat "$scratch/counts" ;;
--write) { echo "$head"; cat "$scratch/counts"; } | tee "$here/counts.txt" ;;
--held)
  awk -F'\t' '
    FNR == 1 { file++ }
    /^#/ { next }
    file == 1 { held[$1] = $2; stack[$1] = $3; next }
    { rows++; over = !($1 in held) || $2 <= 0 || $2 > held[$1] * 31 / 30 || $3 > stack[$1]
      printf "%-34s %8.1f held %8.1f   stack %5d held %5d%s\n", $1, $2, held[$1], $3, stack[$1], over ? "  OVER" : ""
      bad += over; delete held[$1] }
    END { for (row in held) { print row ": held, and not counted"; bad++ }
      if (rows == 0) { print "nothing was counted"; bad++ }
      exit bad > 0 }' "$here/counts.txt" "$scratch/counts"
  ;;
esac
