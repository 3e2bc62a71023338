#!/usr/bin/env bash
# What ./run, ./build and ./check do at their edges: an output that is full or closed, an input that cannot be read, files, options, other folders
# and links. It names each case that goes wrong, and fails if one does.
set -u
root=$(dirname "$(dirname "$(readlink -f "$0")")")
scratch=$(mktemp -d)
trap 'rm -rf "$scratch"' EXIT
cases=0
wrong=0
cd "$scratch" || exit 1

# case_of NAME STATUS OUTPUT ERROR COMMAND: a line of bash, run in the scratch folder with $run, $build and $check, has to end with STATUS and write
# OUTPUT; ERROR is a pattern of the one line that it writes on standard error, or empty where it writes none
case_of() {
  local name=$1 status=$2 output=$3 error=$4 found said
  cases=$((cases + 1))
  run=$root/run build=$root/build check=$root/check timeout 60 bash -c "$5" >out 2>err
  found=$?
  said=$(cat err)
  # shellcheck disable=SC2053
  if [ "$found" -ne "$status" ] || [ "$(cat out)" != "$output" ] || [[ $said != $error ]] || [[ $said = *$'\n'* ]]; then
    wrong=$((wrong + 1))
    printf 'program: %s: status %s, not %s; it wrote:\n' "$name" "$found" "$status"
    head -n 5 out err
  fi
}

sheet='1 0 0 44236800 29491200'
printf 'N31A\n' >one
printf 'n31A\n\nN31A' >two
printf 'N31A\r\n' >three
printf 'N31A' >-four
yes N31A | head -n 100000 >many
mkdir folder
"$root/run" one >/dev/null && "$root/build" >/dev/null || exit 1 # what a first use says is none of what follows

case_of 'standard input' 0 "$sheet" '' '"$run" <one'
case_of 'empty input' 0 '' '' '"$run" </dev/null'
case_of 'a carriage return is a byte like any other' 0 'refused 6 0' '' '"$run" three'
case_of 'misplaced and garbled characters' 0 $'refused 20 3\nrefused 20 2\nrefused 7 3' '' 'printf "N00A\nN61A\nN31-" | "$run"'
case_of 'a full output' 1 '' 'run: *cannot be written*No space left*' '"$run" <one >/dev/full'
case_of 'a full output for a file' 1 '' 'run: *cannot be written*No space left*many?' '"$run" many >/dev/full'
case_of 'a closed output' 1 '' 'run: *output is closed' '"$run" <one >&-'
case_of 'a closed input' 1 '' 'run: *input is closed' '"$run" <&-'
case_of 'a closed input that nobody asks for' 0 "$sheet" '' '"$run" one <&-'
case_of 'standard error closed' 0 "$sheet" '' '"$run" <one 2>&-'
case_of 'standard error closed, and the output full' 1 '' '' '"$run" <one 2>&- >/dev/full'
case_of 'all three closed' 1 '' '' '"$run" <&- >&- 2>&-'
case_of 'a folder as input' 1 '' 'run: *cannot be read*' '"$run" <folder'
case_of 'an input for writing only' 1 '' 'run: *cannot be read*' '"$run" 0>written'
case_of 'a program that is stopped in the midst' 1 '' 'run: *did not say that all was read and written*' '(ulimit -f 1 && "$run" many >cut)'
case_of 'an output that nobody reads' 0 "$sheet 141" '' '"$run" many 2>err.run | head -n 1 | tr "\n" " "; echo "${PIPESTATUS[0]}"; cat err.run >&2'
case_of 'several files' 0 "$sheet
refused 7 0
refused 6 0
$sheet
refused 7 0
$sheet" '' '"$run" one two - one <<<n31A'
case_of 'a missing file' 2 '' "run: *no file 'missing'" '"$run" one missing'
case_of 'a folder among the files' 2 '' "run: 'folder' is a folder" '"$run" one folder'
case_of 'an unknown option' 2 '' "run: *no option '--level'*" '"$run" one --level'
case_of 'a file behind the options' 0 "$sheet" '' '"$run" -- -four'
case_of 'help' 0 "usage: ./run [FILE...]
    $sheet" '' '"$run" --help | grep -e ^usage -e 44236800; exit "${PIPESTATUS[0]}"'
case_of 'help for a full output' 1 '' '*No space left*' '"$run" --help >/dev/full'
case_of 'through a link' 0 "$sheet" '' 'ln -s "$run" linked && ./linked one'

case_of 'the library left in a folder' 0 'a/b: libhailgully.a hailgully.h hailgully.pc' '' '"$build" a/b && [ -s a/b/hailgully.h ] && [ -s a/b/libhailgully.a ]'
case_of 'the library through a link' 0 'c: libhailgully.a hailgully.h hailgully.pc' '' 'ln -s "$build" builds && ./builds c && [ -s c/libhailgully.a ]'
command -v pkg-config >/dev/null || { apt-get update && apt-get install -y pkg-config; } >apt 2>&1 || tail -n 5 apt
case_of 'what pkg-config says of it' 0 "-I$scratch/c -L$scratch/c -lhailgully" '' 'echo $(PKG_CONFIG_PATH=$PWD/c pkg-config --cflags --libs hailgully)'
case_of 'a folder that cannot be made' 1 '' 'mkdir: *' '"$build" one/d 2>&1 | grep -v ^build: >&2; exit "${PIPESTATUS[0]}"'
case_of 'help of build' 0 'usage: ./build [DIR]' '' '"$build" --help | grep ^usage; exit "${PIPESTATUS[0]}"'
case_of 'an unknown option of build' 2 '' "build: *no option '--shared'*" '"$build" --shared'
case_of 'two folders' 2 '' 'build: one folder*' '"$build" e f'
case_of 'help of check' 0 'usage: ./check' '' '"$check" --help | grep ^usage; exit "${PIPESTATUS[0]}"'
case_of 'a word that check does not know' 2 '' "check: *'fast'*" '"$check" fast'

printf 'program: %s cases, %s of them wrong\n' "$cases" "$wrong"
[ "$wrong" -eq 0 ] && [ "$cases" -gt 0 ]
