#!/bin/sh
# Decodes, encodes and shows a savepoint, decodes one key group of it beside all, and goes on from it to the end of its
# job, with this project's programs and with a plain Rust program of the same layout, compares what they print, and
# prints what each took. Words are numbers of entries (100000 1000000 where there are none); RUNS is how often each
# program runs (3), TIMES how often it decodes or encodes (5), GROUP which key group is decoded alone (86).
set -e
here=$(cd "$(dirname "$0")" && pwd)
top=$here/../..
program=$top/crates/streamjob/out/streamjob
[ -x "$program" ] || "$top/scripts/streamjob" group 1 128 4 >/dev/null
codec=$top/crates/savepoint_bench/out/savepoint_bench
[ -x "$codec" ] || (cd "$top/crates/savepoint_bench" && rt run -- decode 1 data/one.savepoint >/dev/null)

folder=$(mktemp -d)
trap 'rm -r "$folder"' EXIT
rustc --edition 2024 -O "$here/plain.rs" -o "$folder/plain"

for entries in ${@:-100000 1000000}; do
  savepoint=$folder/savepoint
  python3 "$here/generate.py" "$folder" "$entries"
  for mode in decode encode; do
    echo "$mode ${TIMES:-5} times: $entries entries, $(wc -c <"$savepoint") bytes"
    words="$mode ${TIMES:-5} $savepoint"
    python3 "$here/../job/compare.py" "${RUNS:-3}" plain "$folder/plain $words" streamjob "$codec $words"
  done
  echo "decode one key group 500 times: $entries entries"
  words="group 500 $savepoint ${GROUP:-86}"
  python3 "$here/../job/compare.py" "${RUNS:-3}" plain "$folder/plain $words" streamjob "$codec $words"
  echo "one key group beside all of $entries entries"
  python3 "$here/group.py" "$codec" "$savepoint" "${GROUP:-86}" "${RUNS:-3}" || over=1
  echo "decode once, and show: $entries entries"
  python3 "$here/../job/compare.py" "${RUNS:-3}" decode "$codec decode 1 $savepoint"
  python3 "$here/../job/compare.py" "${RUNS:-3}" plain "$folder/plain show 1 $savepoint" streamjob "$program show $savepoint"
  echo "decode, fire and print: $entries entries"
  leg="leg $folder/plan.json $folder/input.json $folder/scale.json --from $savepoint"
  python3 "$here/../job/compare.py" "${RUNS:-3}" plain "$folder/plain fire 1 $savepoint" streamjob "$program $leg"
done
[ -z "$over" ]
