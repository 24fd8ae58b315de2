#!/usr/bin/env bash
# Makes calls of a bucket on a real folder; and where strace is installed and may trace, counts their syncs, fails them and kills a put.
set -u
top=$(cd "$(dirname "$0")/.." && pwd)
crate=$top/crates/bucket_calls
program=$crate/out/bucket_calls
. "$top/tests/strace_checks.sh"

# run CALL..: makes the calls in a new process, and keeps its answers in `out`.
run() {
  lines "$@" | "$program" >out
}

# trace "STRACE_OPTION.." CALL..: the same under strace. Its calls come into `calls`, in order.
trace() {
  lines "${@:2}" | strace --quiet=path-resolution -o calls -e trace=fsync,fdatasync,rename,unlink,openat,close,write $1 "$program" >out
}

# Begins with no bucket.
fresh() {
  rm -rf bucket
}

# The program is built where it isn't newer than what it stands on.
made_of=("$crate" "$top/crates/pb_host" "$top/crates/pb_devices")
if [ ! -x "$program" ] || [ -n "$(find "${made_of[@]}" \( -name out -o -name must-fail \) -prune -o -type f -newer "$program" -print -quit)" ]; then
  (cd "$crate" && rt run </dev/null) >said 2>&1 || { cat said; exit 1; }
fi

fresh
run "put obj/1/4 5" "put obj/1/4.ref.1.4 0" "count obj/1/4.ref." "list obj/"
check "count and list" "$(lines 'ok; calls 1; faults 0' 'ok; calls 2; faults 0' '1; calls 3; faults 0' \
  'names obj/1/4 obj/1/4.ref.1.4; calls 4; faults 0')" "$(cat out)"
run "list obj/" "read obj/1/4"
check "a new process after it" "$(lines 'names obj/1/4 obj/1/4.ref.1.4; calls 1; faults 0' '5 bytes, each a; calls 2; faults 0')" "$(cat out)"

fresh
run "put obj/1/40.ref.1.4 0" "count obj/1/4.ref."
check "a longer number" "$(lines 'ok; calls 1; faults 0' '0; calls 2; faults 0')" "$(cat out)"

fresh
run "put obj/1/4 9" "put obj/1/4 6" "read obj/1/4"
check "a put over a name" '6 bytes, each b; calls 3; faults 0' "$(tail -n 1 out)"
run "read obj/1/4" "delete obj/1/4" "delete obj/1/4" "size obj/1/4" "size x/e1"
check "a new process deletes twice" "$(lines '6 bytes, each b; calls 1; faults 0' 'ok; calls 2; faults 0' 'ok; calls 3; faults 0' \
  'none; calls 4; faults 0' 'none; calls 5; faults 0')" "$(cat out)"

run "put obj/1/4 5" "size obj/1" "read obj/1" "put obj/1 3" "delete obj/1" "list obj/"
check "a folder has the name" "$(lines 'ok; calls 1; faults 0' 'failed; calls 2; faults 1' 'failed; calls 3; faults 2' \
  'failed; calls 4; faults 3' 'failed; calls 5; faults 4' 'names obj/1/4; calls 6; faults 4')" "$(cat out)"
run "size ../out" "put tmp/1 1" "delete obj//4" "list tmp/" "list ../"
check "no object's name" "$(lines 'failed; calls 1; faults 1' 'failed; calls 2; faults 2' 'failed; calls 3; faults 3' \
  'names; calls 4; faults 3' 'names; calls 5; faults 3')" "$(cat out)"
touch "bucket/obj/$(printf '\377')"
run "list obj/"
check "a name that is no UTF-8" 'names obj/1/4; calls 1; faults 0' "$(cat out)"

fresh
mkdir -p bucket/x
(cd bucket/x && seq -f 'e%g' 10000 | xargs touch)
run "count x/" "list x/"
check "10,000 names" "10000; calls 1; faults 0 names $(seq -f 'x/e%g' 10000 | LC_ALL=C sort | xargs); calls 2; faults 0" "$(xargs <out)"
run "put x/most 16777216" "size x/most" "read x/most"
check "16 MiB" "$(lines 'ok; calls 1; faults 0' '16777216; calls 2; faults 0' '16777216 bytes, each a; calls 3; faults 0')" "$(cat out)"

need_strace

fresh
trace "" "put obj/1/4 5" "put obj/1/5 5" "delete obj/1/5" "delete obj/1/5"
check "the syncs of a put and a delete" "$(lines 2 1 1)" "$(syncs_by_reply | tail -n +2)"
check "the calls of a put" 'openat write fsync close rename openat fsync close write' \
  "$(awk -F'(' '/^write\(1,/ { replies++ } replies == 1 && !/^write\(1,/ || replies == 2 && /^write\(1,/ { print $1 }' calls | xargs)"

# The calls of a process over a bucket with one object, before its put.
fresh
run "put obj/1/4 5"
trace "" "size obj/1/4"
before=$(syncs_by_reply)

# again: the bucket with one object.
again() {
  fresh
  run "put obj/1/4 5"
}

again
trace "-e inject=fsync:error=EIO:when=$((before + 1))" "size obj/1/4" "put obj/1/4 6" "size obj/1/4" "put obj/1/4 7" "read obj/1/4"
check "the sync of a put's file fails" "$(lines '5; calls 1; faults 0' 'failed; calls 2; faults 1' '5; calls 3; faults 1' \
  'ok; calls 4; faults 1' '7 bytes, each d; calls 5; faults 1')" "$(cat out)"
check "its file is gone" "" "$(ls bucket/tmp)"

again
trace "-e inject=rename:error=EIO:when=1" "size obj/1/4" "put obj/1/4 6" "size obj/1/4" "put obj/1/4 7"
check "the rename of a put fails" "$(lines '5; calls 1; faults 0' 'failed; calls 2; faults 1' '5; calls 3; faults 1' 'ok; calls 4; faults 1')" "$(cat out)"
check "its file is gone" "" "$(ls bucket/tmp)"

again
trace "-e inject=fsync:error=EIO:when=$((before + 2))" "size obj/1/4" "put obj/1/4 6" "size obj/1/4" "list obj/" "delete obj/1/4"
check "the sync of a put's folder fails" "$(lines '5; calls 1; faults 0' 'failed; calls 2; faults 1' 'failed; calls 3; faults 2' \
  'failed; calls 4; faults 3' 'failed; calls 5; faults 4')" "$(cat out)"
run "read obj/1/4"
check "a new process after it" '6 bytes, each b; calls 1; faults 0' "$(cat out)"

again
trace "-e inject=fsync:error=EIO:when=$((before + 1))" "size obj/1/4" "delete obj/1/4" "size obj/1/4"
check "the sync of a delete fails" "$(lines '5; calls 1; faults 0' 'failed; calls 2; faults 1' 'failed; calls 3; faults 2')" "$(cat out)"
run "size obj/1/4"
check "a new process after it" 'none; calls 1; faults 0' "$(cat out)"

# A folder that can't be opened has lost nothing: the next call settles what the one before it left.
again
trace "" "size obj/1/4"
opens=$(grep -c '^openat(.*"bucket/obj/1", ' calls)
for call in "put obj/1/4 6" "delete obj/1/4"; do
  again
  trace "-P bucket/obj/1 -e inject=openat:error=EMFILE:when=$((opens + 1))" "size obj/1/4" "$call" "size obj/2/1" "$call"
  check "the folder can't be opened at $call" "$(lines '5; calls 1; faults 0' 'failed; calls 2; faults 1' 'none; calls 3; faults 1' \
    'ok; calls 4; faults 1')" "$(cat out)"
done

again
for sync in $(seq "$before"); do
  trace "-e inject=fsync:error=EIO:when=$sync" "size obj/1/4" "size obj/1/4"
  check "sync $sync of the first call fails" "$(lines 'failed; calls 1; faults 1' 'failed; calls 2; faults 2')" "$(cat out)"
done

again
trace "-e inject=rename:signal=KILL:error=EIO:when=1" "put obj/1/4 6" 2>/dev/null
check "killed before the rename" "1 file" "$(ls bucket/tmp | wc -l) file"
run "read obj/1/4"
check "a new process after it" '5 bytes, each a; calls 1; faults 0' "$(cat out)"
check "its file is gone" "" "$(ls bucket/tmp)"

finish
