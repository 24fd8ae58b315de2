# What the scripts here share: they count and fail the system's calls of a built program, in a folder that goes afterwards.
passed=0
failed=0

# check NAME WANTED GOT
check() {
  if [ "$2" = "$3" ]; then
    passed=$((passed + 1))
  else
    failed=$((failed + 1))
    printf '%s: wanted\n%s\ngot\n%s\n' "$1" "$2" "$3"
  fi
}

lines() {
  printf '%s\n' "$@"
}

# Prints the counts, and ends with the status that they give.
finish() {
  echo "$passed passed, $failed failed"
  [ "$failed" = 0 ]
  exit
}

# The number of syncs before each reply of a traced run, a line each.
syncs_by_reply() {
  awk '/^f(data)?sync\(/ { syncs++ } /^write\(1,/ { print syncs + 0; syncs = 0 }' calls
}

# opens_before_reply PATH: how often the traced run opened a path before its first reply.
opens_before_reply() {
  awk -v path="\"$1\"," '/^write\(1,/ { exit } /^openat\(/ && $2 == path { opens++ } END { print opens + 0 }' calls
}

folder=$(mktemp -d)
trap 'rm -rf "$folder"' EXIT
cd "$folder" || exit 1

# Ends where strace isn't installed or may not trace.
need_strace() {
  if ! command -v strace >/dev/null; then
    echo "strace is not installed: skipped"
    finish
  fi
  if ! strace --quiet=path-resolution -o calls true 2>/dev/null; then
    echo "strace may not trace here: skipped"
    finish
  fi
}
