#!/bin/sh
# Runs the same job with streamjob, with a plain Rust program, with one that is tuned by hand, with one that
# reads by simdjson where the machine has it (libsimdjson-dev), and with what of SQLite, pandas and Miller
# it has. Compares their answers byte for byte, and prints what each took. Above 1,000,000 records, and with
# TOOLS=no, the last three do not run.
#
# Words are numbers of records (1000000 where there are none), and name=number for the generator, as
# keys=10. RUNS is how often each program runs (3), and STREAMJOB another program to run.
set -e
here=$(cd "$(dirname "$0")" && pwd)
top=$here/../..
program=${STREAMJOB:-$top/crates/streamjob/out/streamjob}
if [ -z "$STREAMJOB" ] && [ ! -x "$program" ]; then
  "$top/scripts/streamjob" group 1 128 4 >/dev/null
fi

folder=$(mktemp -d)
trap 'rm -r "$folder"' EXIT
for name in generate plain tuned; do
  rustc --edition 2024 -O "$here/$name.rs" -o "$folder/$name"
done
simd=
if g++ -std=c++17 -O3 "$here/simd.cpp" -lsimdjson -o "$folder/simd" 2>"$folder/log"; then
  simd=$folder/simd
else
  echo "absent: simdjson"
fi

sizes=
shape=
window_size=10000
window_slide=10000
for word in "$@"; do
  case $word in
    size=*) window_size=${word#*=}; shape="$shape $word" ;;
    slide=*) window_slide=${word#*=}; shape="$shape $word" ;;
    *=*) shape="$shape $word" ;;
    *) sizes="$sizes $word" ;;
  esac
done

words="$folder/input.json $window_size $window_slide"
sqlite=
if python3 -c 'import sqlite3' 2>/dev/null; then
  sqlite="python3 $here/database.py $words"
else
  echo "absent: sqlite3"
fi
pandas=
for python in python3 /usr/bin/python3; do
  if [ -z "$pandas" ] && "$python" -c 'import pandas' 2>/dev/null; then
    pandas="$python $here/tables.py $words"
  fi
done
[ -n "$pandas" ] || echo "absent: pandas"
miller=
if command -v mlr >/dev/null; then
  miller="mlr --ijson --onidx --from $folder/input.json put -q -s size=$window_size -s slide=$window_slide -f $here/records.mlr"
else
  echo "absent: Miller"
fi

for records in ${sizes:-1000000}; do
  "$folder/generate" "$folder/plan.json" "$folder/input.json" "records=$records" $shape
  set --
  if [ "$records" -le 1000000 ] && [ "$TOOLS" != no ]; then
    set -- ${sqlite:+sqlite "$sqlite"} ${pandas:+pandas "$pandas"} ${miller:+miller "$miller"}
  fi
  echo
  echo "$records records$shape, $(wc -c <"$folder/input.json") bytes"
  python3 "$here/compare.py" "${RUNS:-3}" \
    plain "$folder/plain $words" \
    streamjob "$program run $folder/plan.json $folder/input.json" \
    ${simd:+simdjson "$simd $words"} \
    tuned "$folder/tuned $words" \
    "$@"
done
