#!/usr/bin/env bash
# What has to be believed: no definition outside specs/inner rests on one inside, no name of specs/ means two things in two crates, and
# docs/CONTRACTS.md names each file of the first kind, each public function and each must-fail edit. And refusals are made in one crate, grid.
# It names what breaks this, and fails if something does.
set -u
cd "$(dirname "$(dirname "$(readlink -f "$0")")")" || exit 1
status=0

mapfile -t files < <(find crates/*/specs -name '*.antt' | sort)
[ "${#files[@]}" -gt 0 ] || { echo 'statements: no definitions were found' && exit 1; }

mapfile -t believed < <(printf '%s\n' "${files[@]}" | grep -v '/specs/inner[/.]')
if grep -n '^ *use .*\.inner\.' "${believed[@]}"; then
  echo 'statements: these files are to be believed, and rest on what only serves inner contracts'
  status=1
fi

for file in "${believed[@]}" crates/*/must-fail/*.edit; do
  name=$(basename "$file" .antt)
  [ "$name" = Lib ] || grep -q -w -e "${name%.edit}" docs/CONTRACTS.md || { echo "statements: docs/CONTRACTS.md does not name $file" && status=1; }
done

for function in $(grep -h -o -E '^ *pub (extern "C" )?fn [a-z_]+' crates/*/src/*.rt | awk '{ print $NF }' | sort -u); do
  grep -q -w -e "$function" docs/CONTRACTS.md || { echo "statements: docs/CONTRACTS.md does not name the function $function" && status=1; }
done

# a line that ends in `-> Refusal {` or `for Refusal {` is the head of a function or of an impl, in which `Self {` would make one
if grep -n -E '(^|[^A-Za-z])Refusal \{' crates/*/src/*.rt | grep -v -E '^crates/grid/|(-> |for )Refusal \{$'; then
  echo 'statements: a refusal is made here, and not by grid'
  status=1
fi
if awk '/^impl .* for Refusal \{$/ { inside = 1 } /^\}/ { inside = 0 } inside && /Self \{/ && !/-> Self \{$/ { print FILENAME ": " FNR ": " $0; bad = 1 } END { exit !bad }' crates/*/src/*.rt; then
  echo 'statements: a refusal is made here by Self, and not by grid'
  status=1
fi

# the public types and functions of each crate; neither the fields of a record nor the lines that name a file
awk '
  FNR == 1 { split(FILENAME, part, "/") }
  /^((abbrev|unfoldable|opaque) )?pub / && !/^pub mod / {
    name = $0
    sub(/^((abbrev|unfoldable|opaque) )?pub ((data|record) )?/, "", name)
    sub(/[ :].*/, "", name)
    count++
    if (!((name, part[2]) in seen)) { seen[name, part[2]]; crates[name] = crates[name] " " part[2]; in_crates[name]++ }
  }
  END {
    for (name in in_crates) if (in_crates[name] > 1) { print "statements: " name " stands in more than one crate:" crates[name]; bad = 1 }
    if (!count) { print "statements: no name was found"; bad = 1 }
    exit bad
  }' "${files[@]}" || status=1
exit "$status"
