# What the tests in bash share, as lib.py has it for those in Python; it is read by `. "$(dirname "$0")/lib.sh"`.
# $top is the repository's folder, $folder one that is removed at the end.
top=$(cd "$(dirname "${BASH_SOURCE[0]}")/.." && pwd)
passed=0
failed=0
skipped=0
folder=$(mktemp -d)
trap 'rm -rf "$folder"' EXIT

check() { # NAME COMMAND..: the command succeeds
  local name=$1
  shift
  if "$@"; then
    passed=$((passed + 1))
  else
    failed=$((failed + 1))
    echo "failed: $name"
  fi
}

skip() { # WHAT WHY: a part that doesn't run here
  skipped=$((skipped + 1))
  echo "skipped: $1: $2"
}

leave() { # WHY: ends the test, which can't run; in the gate that is a failure
  if [ -n "${TESTS_STRICT:-}" ]; then
    check "all of tests/${0##*/}: $1" false
  else
    skip "all of tests/${0##*/}" "$1"
  fi
  finish
}

need() { # COMMAND..: ends the test if one of them isn't here
  local command
  for command in "$@"; do
    command -v "$command" >/dev/null || leave "the command $command isn't here; ./test installs it where apt-get can"
  done
}

located() { # VARIABLE NAME: has the path of the program, or of the C library's folder, in this variable
  local path
  need python3
  path=$(python3 -B "$top/tests/lib.py" "$2" 2>"$folder/why") || leave "$(cat "$folder/why")"
  printf -v "$1" %s "$path"
}

finish() { # prints the counts, and ends the test; one that did nothing has failed
  local counts="$passed passed, $failed failed"
  [ "$skipped" = 0 ] || counts+=", $skipped skipped"
  echo "$counts"
  [ "$failed" = 0 ] && [ $((passed + skipped)) != 0 ]
  exit
}
