# The counting of tests, for the scripts that source this file: count and tally add to it, finish ends the script.
passed=0
failed=0

# count NAME COMMAND..: one test, which passes where the command does
count() {
  local name=$1
  shift
  if "$@"; then
    passed=$((passed + 1))
  else
    failed=$((failed + 1))
    echo "FAILED: $name"
  fi
}

# tally COMMAND..: a command whose last line says 'N passed, M failed' itself. It is one failure more where that line is
# missing, or where the status is bad and M is 0.
tally() {
  local out last status
  out=$(mktemp)
  "$@" 2>&1 | tee "$out"
  status=${PIPESTATUS[0]}
  last=$(tail -n 1 "$out")
  rm -f "$out"
  if [[ $last =~ ^([0-9]+)\ passed,\ ([0-9]+)\ failed$ ]]; then
    passed=$((passed + BASH_REMATCH[1]))
    failed=$((failed + BASH_REMATCH[2]))
    if [ "$status" -eq 0 ] || [ "${BASH_REMATCH[2]}" -gt 0 ]; then
      return
    fi
  fi
  failed=$((failed + 1))
  echo "FAILED: $* (status $status)"
}

# finish: the last line of a script, and its status, 0 only where nothing failed
finish() {
  echo "$passed passed, $failed failed"
  [ "$failed" -eq 0 ]
}
