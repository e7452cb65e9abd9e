#!/usr/bin/env bash
# faults.sh [ROUNDS]: runs the program on the log of devices (scripts/workers/device_log), with two workers and a feed that makes commits of its own, again and
# again: each time another allocation is refused, or another read or write fails, where reads and writes move 40 bytes at most; each of them in ROUNDS (3)
# runs, since the threads fall otherwise each time. After each run it looks whether
#   - each reply is the one that its command is due behind what came of those before it, or `refused Memory`;
#   - the commits of the journal are just those that the replies of the two sessions tell of, with their cursors, but for a last one whose reply could not
#     be written; what was written of that is a beginning of it;
#   - the status is that of the first session that has one, as docs/RUNNING.md says: 3 or 4 of the session whose read or write failed, 1 where a reply is
#     `refused Memory` or a session ended for want of room, or where there is no catalogue, and then nothing was printed.
# The journal is shown to a third session, which waits for the others; where that one is refused it is what the main script was shown at its end.
# Before that it runs a script with exports, once for each call that makes, writes, syncs or renames a file, and for each allocation: the call fails, and in
# another run the program ends there. After each run it looks whether
#   - each reply is the one that is due, or one reply tells the fault: `refused ArtefactFault` where it befell the file of that command, or `refused Memory`;
#   - the files that replies name are there, with just the bytes that their ranges give, so that each record up to an export's last range is in one of them;
#   - nothing else is left but the beginning of a file, under its name with `.part`, and the whole file of the one command that has no reply;
#   - each file was synced before it got its name.
# Before these it runs the scripts of tools/faults, in which rows of every type are put in and queries are asked of 100,000 rows, so that several threads
# gather them: once for each allocation, or with 3000 of them at even distances. The allocation is refused. After each run it looks whether
#   - at most one reply is `refused Memory`, and the others are those that the script without that command is answered;
#   - the status is 1 where a reply says so or is lacking, and else 0, or 1 where all was answered and no room found to go on.
# The last line of each of the three counts its runs. It needs a C compiler and python3, and the proved program, which .ci/run builds; KQ_PROGRAM names another one.
set -eu
top=$(cd "$(dirname "$0")/.." && pwd)
program=${KQ_PROGRAM:-$top/crates/kq_console/out/kq_console}
[ -x "$program" ] || { echo "faults.sh: there is no $program" >&2; exit 1; }
folder=$(mktemp -d)
trap 'rm -rf "$folder"' EXIT
"${CC:-cc}" -O2 -shared -fPIC -o "$folder/faults.so" "$top/tools/faults.c" -ldl
cat >"$folder/feed.kql" <<'FEED'
print "feed"

.create table Seen (k:long)

.ingest inline into table Seen <|
1

Seen | count
FEED
status=0
python3 "$top/tools/faults_scripts.py" "$program" "$folder/faults.so" "$top"/tools/faults/*.kql || status=1
python3 "$top/tools/faults_exports.py" "$program" "$folder/faults.so" || status=1
python3 "$top/tools/faults.py" "$program" "$folder/faults.so" "$top/scripts/workers/device_log.kql" "$folder/feed.kql" "${1:-3}" || status=1
exit $status
