#!/usr/bin/env bash
# Every file of the repository belongs to something, no line of a document is longer than 160 characters, and the header, hailgully.pc and both
# bindings say one version: it names what breaks this, and fails if something does.
set -u
cd "$(dirname "$(dirname "$(readlink -f "$0")")")" || exit 1
crates=$(awk -F: '!/^#/ && NF > 1 { split($1, word, " "); printf "%s%s", sep, word[1]; sep = "|" }' crates.txt)
pattern="^(
README.md|crates.txt|rustfmt.toml|build|run|check|.gitignore|.ci/[a-z]+|
crates/($crates)/(src/[a-z_/]+.rt|(specs|proofs)/[^ ]+.antt|must-fail/[a-z_]+.edit|stdin|stdout|args)|
docs/[A-Z-]+.md|docs/landings/[^ /]+.md|docs/pictures/[^ /]+.svg|
include/hailgully.(h|pc)|examples/[a-z_]+.(c|stdout)|
(tests|tools|bench|bindings/raw|bindings/rust)/([a-z0-9_/]+.(rs|c|h|sh|py|txt)|README.md|Cargo.(toml|lock))
)\$"
pattern=${pattern//$'\n'/}
files=$(git ls-files) && [ -n "$files" ] || { echo 'files: git names no file here' && exit 1; }
if printf '%s\n' "$files" | grep -v -E -x -e "${pattern//./\\.}"; then
  echo 'files: these belong to nothing'
  exit 1
fi
status=0
while IFS= read -r document; do
  longest=$(wc -L <"$document") && [ "$longest" -le 160 ] || { echo "files: $document has a line of $longest characters" && status=1; }
done < <(printf '%s\n' "$files" | grep '\.md$')
header=$(sed -n 's/^#define HG_VERSION_M[AI][JN]OR \([0-9]*\)$/\1/p' include/hailgully.h | paste -s -d .)
for other in include/hailgully.pc bindings/raw/Cargo.toml bindings/rust/Cargo.toml; do
  version=$(sed -n -E 's/^(Version: |version = ")([0-9]+\.[0-9]+)(\.0")?$/\2/p' "$other")
  [ -n "$header" ] && [ "$version" = "$header" ] || { echo "files: $other says version '$version', the header '$header'" && status=1; }
done
exit "$status"
