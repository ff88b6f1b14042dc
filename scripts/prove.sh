#!/usr/bin/env bash
# Proves every crate: scripts/prove.sh. Or one with what it rests on, and compiles it, a static library or a program, to FILE: scripts/prove.sh CRATE FILE
# Says crate by crate where it is. All that `rt` said stands in target/CRATE.log (target/crates.log), and is shown where it fails.
set -euo pipefail
cd "$(dirname "$0")/.."
mkdir -p target
exec 9>target/lock # two of these would do the same work in turn
flock -n 9 || { echo 'Waiting for another proof in this folder'; flock 9; }
mapfile -t crates < <(scripts/crates.sh "${@:1:1}")
log=target/${1-crates}.log

# In a crate's folder: `rt` proves it over what it keeps in out/, and leaves there what it compiles. A program is compiled by `rt run`, which runs it too.
prove_crate() {
  if [[ ! -e src/main.rt ]]; then
    rt lib
  elif [[ $1 == "${2-}" ]]; then
    rt run && prints_its_stdout "$1"
  else
    rt check
  fi
}

# Holds what a program prints about its crate's data/ to the file stdout, as `rt ci` does.
prints_its_stdout() {
  local words
  mapfile -t words <args && (cd data && "../out/$1" "${words[@]}") | cmp - stdout
}

# The lines `rt: CRATE proved` are those of `rt ci`.
prove() {
  local crate
  for crate in "${crates[@]}"; do
    (cd "crates/$crate" && prove_crate "$crate" "${1-}") || { echo "rt: $crate NOT PROVED"; return 1; }
    echo "rt: $crate proved"
  done
  [[ $# -gt 0 ]] || return 0
  if [[ -e crates/$1/src/main.rt ]]; then
    install -D "crates/$1/out/$1" "$2"
  else
    install -D -m 644 "crates/$1/out/lib$1.a" "$2"
  fi
}

echo "Proving ${1-everything}, ${#crates[@]} crates: some minutes the first time (all that is said: $log)"
set -m # a process group, to be ended whole: the proofs that `rt` runs side by side take no interrupt
{ (prove "$@") 2>&1 </dev/null | tee "$log" | scripts/progress.sh "${#crates[@]}"; } &
trap 'kill -- "-$!"; exit 130' HUP INT TERM
wait $! || { cat "$log"; exit 1; }
