#!/usr/bin/env bash
# Sees to it that programs are there: scripts/need.sh PROGRAM.. As root it installs the Debian packages of those that are missing; otherwise, and where
# that does not help, it names them and ends with status 2.
set -euo pipefail

missing() {
  local program
  for program; do
    command -v "$program" >/dev/null || printf '%s\n' "$program"
  done
}

# The Debian packages of programs: those of the same name, and the C library's headers with a compiler.
packages() {
  local program
  for program; do
    case $program in
      gcc | cc) echo gcc libc6-dev ;;
      *) echo "${program##*/}" ;;
    esac
  done
}

mapfile -t absent < <(missing "$@")
[[ ${#absent[@]} -gt 0 ]] || exit 0
if [[ " ${absent[*]} " == *' rt '* ]]; then
  cat >&2 <<'TEXT'
Missing: the command `rt`, which proves the crates and compiles them.
It belongs to the Rattle kit, and is no Debian package: get the kit, unpack it, and put its folder bin/ on the PATH, or a link to its bin/rt.
TEXT
  exit 2
fi
mapfile -t wanted < <(packages "${absent[@]}")
# shellcheck disable=SC2068
set -- ${wanted[@]}
if [[ $(id -u) == 0 ]] && command -v apt-get >/dev/null; then
  echo "Installing the Debian packages $*"
  export DEBIAN_FRONTEND=noninteractive
  { apt-get update -qq && apt-get install -y -qq "$@"; } >&2 </dev/null || true
  mapfile -t absent < <(missing "${absent[@]}")
  [[ ${#absent[@]} -gt 0 ]] || exit 0
fi
echo "Missing: ${absent[*]}. As root: apt-get install $*" >&2
exit 2
