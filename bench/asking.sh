#!/usr/bin/env bash
# Eight sessions put 200,000 rows each into a table of their own, and each asks 200 times for a summarize by 10 keys, all at once on four processors: the wall
# time of the questions with several threads for each, and without. Without them the program is held to one processor while it starts, so that it
# counts one, and is then let go.
# The program has to be built (.ci/run does it).
set -eu
top=$(cd "$(dirname "$0")/.." && pwd)
program=$top/crates/kq_console/out/kq_console
folder=$(mktemp -d)
trap 'rm -rf "$folder"' EXIT

make_script() { # NUMBER QUESTIONS
  awk -v number="$1" -v questions="$2" 'BEGIN {
    print ".create table E" number " (k:long, v:long)\n"
    for (b = 0; b < 20; b++) {
      print ".ingest inline into table E" number " <|"
      for (r = 0; r < 10000; r++) print b * 10000 + r "," (b * 10000 + r) * 7919 % 200000
      print ""
    }
    for (q = 0; q < questions; q++) print "E" number " | summarize count(), sum(v) by g = k % 10 | count\n"
  }'
}

run() { # QUESTIONS PROCESSORS: the wall time in seconds
  local start end feeds
  feeds=$(printf 'feed%s ' 1 2 3 4 5 6 7)
  start=$(date +%s.%N)
  # shellcheck disable=SC2086
  taskset -c "$2" "$program" $feeds <"$1.main" >/dev/null &
  sleep 0.02
  taskset -a -p -c 0-3 $! >/dev/null
  wait $!
  end=$(date +%s.%N)
  echo "$end - $start" | bc
}

cd "$folder"
for questions in 0 200; do
  make_script 0 "$questions" >"$questions.main"
  for i in 1 2 3 4 5 6 7; do make_script "$i" "$questions" >"feed$i.$questions"; done
done

least() { # QUESTIONS PROCESSORS: the least of three times
  for i in 1 2 3 4 5 6 7; do cp "feed$i.$1" "feed$i"; done
  for _ in 1 2 3; do run "$1" "$2"; done | sort -n | head -n 1
}

for processors in 0-3 0; do
  none=$(least 0 "$processors")
  all=$(least 200 "$processors")
  case $processors in 0) what=without ;; *) what=with ;; esac
  echo "$what several threads: $(echo "$all - $none" | bc) s"
done
