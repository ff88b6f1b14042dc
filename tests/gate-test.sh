#!/usr/bin/env bash
# Tests the gate itself: whatever goes wrong, its last line is the verdict, and its status is 0 only if nothing failed: tests/gate-test.sh
# Programs of this test stand for `rt` and `make`; one of them goes wrong as $BREAK says.
set -euo pipefail
cd "$(dirname "$0")/.."
folder=$(mktemp -d)
trap 'rm -rf "$folder"' EXIT
mkdir "$folder/programs" "$folder/a station"
cp -R --parents tests/gate.sh scripts "$folder/a station"
cd "$folder/a station"
mkdir -p crates/one/must-fail
touch crates/one/must-fail/wrong.edit
printf 'one:\noffload staticlib: one\nharness_c staticlib: one\nbench_calls staticlib: one\noffload_compare: one\n' >crates.txt
tried=0
wrong=0

cat >"$folder/programs/rt" <<'TEXT'
#!/usr/bin/env bash
echo "$*" >>calls
[[ $BREAK == "$1" ]] && exit 3
[[ $BREAK == killed ]] && kill -KILL $$
printf '== %s\nrt: %s proved\n' one one offload offload harness_c harness_c
[[ $BREAK == died ]] && exit 2
echo 'rt: bench_calls is kept: an earlier run on this machine proved the same files over the same libraries'
[[ $BREAK == program ]] && { printf '%s\n' 'rt: offload_compare NOT PROVED' 'rt: FAILED: offload_compare' '5 passed, 1 failed'; exit 1; }
echo 'rt: offload_compare proved'
[[ $BREAK == slow ]] && { echo $$ >started; sleep 60; }
[[ $BREAK == lost ]] || { mkdir -p crates/offload_compare/out && touch crates/offload_compare/out/offload_compare; }
[[ $BREAK == edit ]] && { printf '%s\n' 'rt: must-fail one/wrong.edit: NOT REFUSED: the crate is still proved with this edit' '5 passed, 1 failed'; exit 1; }
echo 'rt: must-fail one/wrong.edit: refused, as it must be: ./proofs/Laws.antt:1:1: error'
echo 'rt: offload_compare ran, and wrote what its file stdout has'
refused='1 refused'
[[ $BREAK != bad ]] || refused+=', 2 bad'
[[ $BREAK != limit ]] || refused+=', 1 of them only by a limit'
[[ $BREAK != both ]] || refused+=', 1 of them only by a limit, 10 bad'
[[ $BREAK == mute ]] || echo "rt: ok; handles allowed: none; must-fail edits: $refused; every proof and must-fail edit was done in this run"
[[ $BREAK == silent ]] || echo '6 passed, 0 failed'
[[ $BREAK != status ]] || exit 2
TEXT
cat >"$folder/programs/make" <<'TEXT'
#!/usr/bin/env bash
[[ $BREAK != "make $1" ]] || exit 2
[[ $BREAK != "kill $1" ]] || kill -KILL $$
TEXT
chmod +x "$folder/programs/"*

# expect STATUS VERDICT BREAK: how the gate ends where this goes wrong.
expect() {
  local status=0 verdict
  BREAK=$3 PATH=$folder/programs:$PATH tests/gate.sh >said 2>&1 || status=$?
  verdict=$(tail -n 1 said)
  tried=$((tried + 1))
  [[ $status == "$1" && $verdict == "$2" ]] || { printf 'wrong: %s: status %s, %s\n' "$3" "$status" "$verdict"; cat said; wrong=1; }
}

# Six of `rt ci`, and 15 parts.
expect 0 '21 passed, 0 failed' nothing
grep -qx '  3 of 5: harness_c proved' said
grep -qx '  4 of 5: bench_calls proved by an earlier run' said
grep -qx '  5 of 5: offload_compare proved' said
grep -qx '  1 of 1 edits: one/wrong.edit: refused, as it must be' said
grep -qx 'calls: passed ([0-9]* s)' said
# `rt ci`, once and with no other word.
[[ $(<calls) == ci ]] || { echo "wrong: calls of rt: $(<calls)"; wrong=1; }
expect 0 '21 passed, 0 failed' limit
expect 1 '20 passed, 1 failed' 'make selftest'
expect 1 '20 passed, 1 failed' 'make second-test'
expect 1 '20 passed, 1 failed' 'make damage'
expect 1 '20 passed, 1 failed' 'make program-test'
expect 1 '20 passed, 1 failed' 'kill calls'
expect 1 '20 passed, 1 failed' edit
expect 1 '21 passed, 1 failed' status
expect 1 '15 passed, 1 failed' silent
expect 1 '21 passed, 1 failed' mute
# Edits that `rt ci` could not try, and passes over: each has failed.
expect 1 '21 passed, 2 failed' bad
expect 1 '21 passed, 10 failed' both
# The program is not proved, or not there: its three parts have failed.
expect 1 '17 passed, 4 failed' program
grep -q '^Did not run to the end: program-test install-test build-test$' said
rm -r crates/offload_compare
expect 1 '18 passed, 3 failed' lost
# The library is not proved, or not built: its twelve parts have failed.
expect 1 '3 passed, 13 failed' ci
expect 1 '3 passed, 13 failed' killed
expect 1 '3 passed, 13 failed' died
grep -q '^Did not run to the end: library compare ' said
expect 1 '9 passed, 12 failed' 'make harness'
# Something that the gate needs is missing: nothing runs.
expect 2 '0 passed, 16 failed' 'make tools'

# A gate that is ended says so, and ends what it started (a process that nobody waited for is a zombie).
ended() { [[ ! -e /proc/$1 || $(cut -d ' ' -f 3 "/proc/$1/stat") == Z ]]; }
BREAK=slow PATH=$folder/programs:$PATH tests/gate.sh >said 2>&1 &
gate=$!
until [[ -s started ]] && grep -q '^gate-test: passed' said; do sleep 0.1; done
! grep -E '^(library|calls|program-test): ' said || { echo 'wrong: it did not wait for rt ci'; wrong=1; }
kill -TERM $gate
status=0
wait $gate || status=$?
[[ $status == 143 && $(tail -n 1 said) =~ ^[0-9]+\ passed,\ [1-9][0-9]*\ failed$ ]] || { echo "wrong: ended, status $status"; cat said; wrong=1; }
for _ in {1..50}; do
  ended "$(<started)" && break
  sleep 0.1
done
ended "$(<started)" || { echo 'wrong: what the gate started goes on'; wrong=1; }

[[ $wrong == 0 ]] && echo "gate: $((tried + 1)) ends as expected"
exit $wrong
