#!/bin/sh
# Runs a job whose keys were chosen to collide, and the same job with random keys, at each number of records
# (80000 and 1000000 where there are none), and prints what each took. RUNS is how often each runs (3), and
# STREAMJOB another program to run.
set -e
here=$(cd "$(dirname "$0")" && pwd)
program=${STREAMJOB:-$here/../../crates/streamjob/out/streamjob}
folder=$(mktemp -d)
trap 'rm -r "$folder"' EXIT

for records in ${@:-80000 1000000}; do
  for shape in random chosen; do
    python3 "$here/keys.py" "$folder/plan.json" "$folder/input.json" "$records" "$shape"
    echo
    echo "$records records, $shape keys"
    python3 "$here/compare.py" "${RUNS:-3}" streamjob "$program run $folder/plan.json $folder/input.json"
  done
done
