#!/usr/bin/env bash
# The gate. Its last line is the verdict, `N passed, M failed`, and its exit status is 0 only if nothing failed. What counts: each crate and each
# must-fail edit, as `rt ci` counts them, each edit that it could not try as failed, and each other part as one. A part that could not run has failed.
#
# First `rt ci`, which takes longest, and beside it, giving way to it, what needs no proof. Then what runs on the library, and on the program, if `rt ci`
# has proved these: any other proof in this folder waits until `rt ci` ends.
# shellcheck disable=SC2317 # what a trap calls
set -uo pipefail
unset MAKEFLAGS MAKELEVEL # of the `make` that runs this
cd "$(dirname "$0")/.." || exit 2

parts=(rt-ci second-test gate-test selftest library compare calls stack example tool-test order profile damage program-test install-test build-test)
kept=$(mktemp -d) || exit 2
crates=$(scripts/crates.sh | wc -l)
edits=$(find crates -path '*/must-fail/*.edit' | wc -l)

# part NAME COMMAND..: runs a part, and leaves what it said in NAME.log and its exit status in NAME.status.
part() {
  local name=$1 began=$SECONDS status end=passed
  shift
  "$@" 2>&1 </dev/null | tee "$kept/$name.log" | scripts/progress.sh "$crates" "$edits"
  status=${PIPESTATUS[0]}
  echo "$status" >"$kept/$name.status"
  [[ $status == 0 ]] || end="FAILED with status $status"
  echo "$name: $end ($((SECONDS - began)) s)"
  return "$status"
}

make_parts() {
  local name
  for name; do part "$name" nice -n 5 make "$name"; done
}

without_proof() {
  make_parts second-test selftest gate-test
}

# Whether `rt ci`, which has ended, has proved these crates, now or in an earlier run.
proved() {
  local crate
  for crate; do grep -qE "^rt: $crate (proved\$|is kept: )" "$kept/rt-ci.log" || return; done
}

on_the_library() {
  proved offload harness_c bench_calls || return
  rm -rf target/staticlib # what was built before
  part library make harness tool || return
  make_parts compare &
  make_parts calls stack example tool-test order profile
  part damage make damage DAMAGED=500 LLVM=
  on_the_program
  wait
}

# The program is the one that `rt ci` has proved, built and run: `make` takes it as it is, newer than its sources.
on_the_program() {
  proved offload_compare && install -D {crates/offload_compare/out,target/bin}/offload_compare || return
  make_parts program-test install-test build-test
}

on_a_proof() {
  part rt-ci rt ci
  on_the_library
}

passed=0
failed=0
unfinished=()

# What `rt ci` says last but one if all is well. It leaves out of its verdict the must-fail edits that it could not try: `, N bad` in this line.
ok() {
  grep '^rt: ok;' "$kept/rt-ci.log" | tail -n 1
}

# Adds up a part that has ended, and shows what it said where it failed. `rt ci` counts for itself: without its verdict, or that line, one has failed.
add_up() {
  local name=$1 status before=$failed bad=' refused[^;]*, ([0-9]+) bad'
  status=$(<"$kept/$name.status")
  if [[ $name != rt-ci ]]; then
    [[ $status != 0 ]] || passed=$((passed + 1))
  elif [[ $(tail -n 1 "$kept/rt-ci.log") =~ ^([0-9]+)\ passed,\ ([0-9]+)\ failed$ ]]; then
    passed=$((passed + BASH_REMATCH[1]))
    failed=$((failed + BASH_REMATCH[2]))
    [[ ! $(ok) =~ $bad ]] || failed=$((failed + BASH_REMATCH[1]))
    [[ -n $(ok) ]] || status=none
  else
    status=none
  fi
  [[ $status == 0 || $failed -gt $before ]] || failed=$((failed + 1))
  [[ $failed == "$before" ]] || { printf '\n---- %s\n' "$name"; cat "$kept/$name.log"; }
}

# The verdict, however the gate ends.
finish() {
  local status=$? group name
  trap '' HUP INT TERM
  for group in $(jobs -pr); do kill -- "-$group"; done
  wait
  for name in "${parts[@]}"; do
    if [[ -e $kept/$name.status ]]; then add_up "$name"; else unfinished+=("$name"); fi
  done
  failed=$((failed + ${#unfinished[@]}))
  [[ ${#unfinished[@]} == 0 ]] || printf '\nDid not run to the end: %s\n' "${unfinished[*]}"
  mkdir -p target/gate
  find "$kept" -name '*.log' -exec cp -t target/gate {} +
  rm -rf "$kept"
  [[ $status == 0 || $failed -gt 0 ]] || failed=1
  [[ $status != 0 || $failed == 0 ]] || status=1
  printf '\n%d min %d s. What each part said: target/gate\n' $((SECONDS / 60)) $((SECONDS % 60))
  echo "$passed passed, $failed failed"
  exit "$status"
} 2>&1
trap finish EXIT
trap 'exit 129' HUP
trap 'exit 130' INT
trap 'exit 143' TERM

scripts/need.sh make && make tools || exit 2
set -m # each lane is a process group, and can be ended whole
on_a_proof &
without_proof &
set +m
wait
exit 0
