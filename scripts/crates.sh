#!/usr/bin/env bash
# The crates that the named crates rest on, and these, one a line, each after what it rests on: scripts/crates.sh [NAME..]. With no name, every crate.
set -euo pipefail
cd "$(dirname "$0")/.."
declare -A rests seen
# A line is NAME: LIBRARY .., or NAME staticlib: LIBRARY ..
while IFS=: read -r crate list; do rests[${crate%% *}]=$list; done < <(sed 's/#.*//; /:/!d' crates.txt)

# Crates of the kit are not listed, and passed over.
visit() {
  local crate
  for crate; do
    [[ -n ${rests[$crate]+listed} && -z ${seen[$crate]-} ]] || continue
    seen[$crate]=1
    # shellcheck disable=SC2086
    visit ${rests[$crate]}
    printf '%s\n' "$crate"
  done
}

[[ $# -gt 0 ]] || set -- "${!rests[@]}"
visit "$@"
