#!/usr/bin/env bash
# Runs a program of the repository by `rt try`, and holds what it prints to its file stdout (none: nothing): tests/selftest.sh CRATE RUNNERS
# `rt try` has an interpreter and a compiled run with checks; so many of the two must answer. The interpreter takes no program that reads.
set -euo pipefail
runners=$2
cd "$(dirname "$0")/../crates/$1"
folder=$(mktemp -d)
trap 'rm -rf "$folder"' EXIT
input=/dev/null
wanted=/dev/null
[[ ! -e stdin ]] || input=stdin
[[ ! -e stdout ]] || wanted=stdout

status=0
rt try <"$input" >"$folder/output" 2>"$folder/said" || status=$?
cat "$folder/said"
[[ $status == 0 ]] || { cat "$folder/output"; echo "wrong: $1: status $status"; exit 1; }
cmp "$folder/output" $wanted
[[ $(tail -n 1 "$folder/said") =~ ^run=ended\ status=0\ (.*\ )?runners=([0-9]+)\  && ${BASH_REMATCH[2]} -ge $runners ]] ||
  { echo "wrong: $1: fewer than $runners of the two runs of \`rt try\` answered"; exit 1; }
echo "$1: prints what it must, runs that answered: ${BASH_REMATCH[2]}"
