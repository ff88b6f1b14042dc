# What the tests of the tool and of the program share; read by them in the folder that the test works in. offload is the tool, or the program.
# shellcheck shell=bash
# shellcheck disable=SC2154,SC2034
exec 3>&1 </dev/null
tried=0
wrong=0

fail() {
  printf 'wrong: %s\n' "$1" >&3
  wrong=1
}

# The user under whom the tool runs: nothing, or the command that takes another.
user=()

# said STATUS ERROR WORD..: the tool's exit status and what it says on standard error, a pattern. Input and output are the caller's.
said() {
  local status=$1 error=$2 got
  shift 2
  timeout 60 "${user[@]}" "$offload" "$@" 2>../error
  got=$?
  tried=$((tried + 1))
  [ "$got" = "$status" ] || fail "offload $*: status $got and not $status"
  # shellcheck disable=SC2053
  [[ $(<../error) == $error ]] || fail "offload $*: error: $(<../error)"
}

# expect STATUS OUTPUT ERROR WORD..: standard output too, a pattern.
expect() {
  local output=$2
  said "$1" "${@:3}" >../output
  # shellcheck disable=SC2053
  [[ $(<../output) == $output ]] || fail "offload ${*:4}: output: $(<../output)"
}

same() {
  tried=$((tried + 1))
  cmp "$1" "$2" || fail "$1 is not $2"
}

# is WHAT GOT WANTED
is() {
  tried=$((tried + 1))
  [ "$2" = "$3" ] || fail "$1: $2 and not $3"
}

# The folder holds these files, those of its folders too, and no other: no temporary file is left.
holds() {
  local files
  files=$(find . -mindepth 1 -printf '%P\n' | LC_ALL=C sort)
  is 'the folder holds' "${files//$'\n'/ }" "$*"
}
