#!/usr/bin/env bash
# Counts the syncs of two sets on real folders, and fails some of them, and the opens of folders. Skipped where strace isn't installed
# or may not trace.
set -u
top=$(cd "$(dirname "$0")/.." && pwd)
program=$top/pebble_cli
. "$top/tests/strace_checks.sh"

# run LINE..: runs the lines as a script on the folder's stores, and keeps its output and status in `out`.
run() {
  printf '%s\n' "$@" | "$program" run >out
  echo "status $?" >>out
}

# trace "STRACE_OPTION.." LINE..: the same under strace. Its calls come into `calls`, in order.
trace() {
  printf '%s\n' "${@:2}" | strace --quiet=path-resolution -o calls -e trace=fsync,fdatasync,rename,openat,write $1 "$program" run >out
  echo "status $?" >>out
}

# Runs under strace, where the sync of this number fails, and is not made.
trace_failing() {
  trace "-e inject=fsync,fdatasync:error=EIO:when=$1" "${@:2}"
}

# Begins with no stores.
fresh() {
  rm -rf stores
}

need_strace
# The launcher builds the program where it has to.
"$program" run </dev/null || exit 1

fresh
trace "" "open A" "A set a 1" "A set b 2"
check "two sets" "$(lines 'opened 0' 'ok 1' 'ok 2' 'status 0')" "$(cat out)"
check "two syncs a set, and each reply before the next line's calls" "$(lines 2 2)" "$(syncs_by_reply | tail -n +2)"
opening=$(syncs_by_reply | head -n 1)

fresh
trace_failing $((opening + 1)) "open A" "A set a 1"
check "the sync of the entry fails" "$(lines 'opened 0' 'refused 22 DiskFault' 'status 6')" "$(cat out)"
run "open A" "A get a"
check "a new process after it" "$(lines 'opened 0' none 'status 0')" "$(cat out)"

fresh
trace_failing $((opening + 2)) "open A" "A set a 1"
check "the sync of the gate fails" "$(lines 'opened 0' 'refused 22 DiskFault' 'status 6')" "$(cat out)"
run "open A" "A get a"
check "a new process after it" "$(lines 'opened 1' 'value 1' 'status 0')" "$(cat out)"

fresh
trace_failing $((opening + 2)) "open A" "A set a 1" "open A" "A get a"
check "the same process goes on" "$(lines 'opened 0' 'refused 22 DiskFault' 'opened 1' 'value 1' 'status 6')" "$(cat out)"
check "a new file stands in place of the one whose sync failed" 1 "$(grep -c '^rename(.*, "stores/A/3.log") *= 0' calls)"
check "nothing else is left in the folder" 3.log "$(ls -A stores/A)"

# A folder that can't be opened has lost nothing.
for path in stores/A stores; do
  fresh
  trace "" "open A"
  opens=$(opens_before_reply $path)
  check "$path is opened" 1 "$((opens > 0))"
  for open in $(seq "$opens"); do
    fresh
    trace "-P $path -e inject=openat:error=EMFILE:when=$open" "open A" "open A" "A set a 1"
    check "open $open of $path fails" "$(lines 'refused 22 DiskFault' 'opened 0' 'ok 1' 'status 6')" "$(cat out)"
    run "open A" "A get a"
    check "a new process after it" "$(lines 'opened 1' 'value 1' 'status 0')" "$(cat out)"
  done
done

fresh
trace "-P $folder/stores/A -e inject=fsync:error=EIO:when=1" "open A" "open A" "A set a 1"
check "the sync of the folder fails" "$(lines 'refused 22 DiskFault' 'refused 22 DiskFault' 'refused 2 NotOpen' 'status 6')" "$(cat out)"
run "open A"
check "a new process after it" "$(lines 'opened 0' 'status 0')" "$(cat out)"

finish
