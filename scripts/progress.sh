#!/usr/bin/env bash
# Reads what `rt` prints, and prints where it is, a line for each crate and each must-fail edit as it ends: scripts/progress.sh CRATES [EDITS]
set -euo pipefail
crates=$1
edits=${2-0}
ended=0
tried=0

# crate NAME END: the next crate has ended.
crate() {
  ended=$((ended + 1))
  printf '%3d of %d: %s\n' $ended "$crates" "$1 $2"
}

while IFS= read -r line; do
  if [[ $line =~ ^rt:\ ([a-z0-9_]+)\ (proved|NOT PROVED.*)$ ]]; then
    crate "${BASH_REMATCH[1]}" "${BASH_REMATCH[2]}"
  elif [[ $line =~ ^rt:\ ([a-z0-9_]+)\ is\ kept: ]]; then
    crate "${BASH_REMATCH[1]}" 'proved by an earlier run'
  elif [[ $line =~ ^rt:\ must-fail\ (.*) ]]; then
    tried=$((tried + 1))
    # why it is refused is long
    printf '%3d of %d edits: %s\n' $tried "$edits" "${BASH_REMATCH[1]/refused, as it must be*/refused, as it must be}"
  elif [[ $line =~ ^rt:\ ([a-z0-9_]+\ ran.*|ok\;.*|FAILED:.*) ]]; then
    printf '%s\n' "${BASH_REMATCH[1]}"
  fi
done
