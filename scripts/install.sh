#!/usr/bin/env bash
# Puts what was built in place below PREFIX, or removes it again: PREFIX=FOLDER [DESTDIR=FOLDER] scripts/install.sh install|uninstall VERSION
# DESTDIR, where it is given, stands before PREFIX, and is not written into any file.
set -euo pipefail
prefix=$(realpath -ms -- "${PREFIX:?}")
version=$2
cd "$(dirname "$0")/.."
root=${DESTDIR-}$prefix

# each ACTION: the action for each file: ACTION MODE PLACE SOURCE
each() {
  "$1" 644 include/offload.h include/offload.h
  "$1" 644 lib/liboffload.a target/staticlib/liboffload.a
  "$1" 755 bin/offload target/offload
  "$1" 755 bin/offload-compare target/bin/offload_compare
  "$1" 644 lib/pkgconfig/offload.pc tool/offload.pc.in
  "$1" 644 lib/cmake/offload/offload-config.cmake tool/offload-config.cmake
  "$1" 644 lib/cmake/offload/offload-config-version.cmake tool/offload-config-version.cmake.in
  "$1" 644 share/man/man1/offload.1 tool/offload.1
  "$1" 644 share/man/man1/offload-compare.1 tool/offload-compare.1
}

# A file with the values in it.
filled() {
  local text
  text=$(<"$1")
  text=${text//@PREFIX@/"$prefix"}
  printf '%s\n' "${text//@VERSION@/"$version"}"
}

install_file() {
  case $3 in
    *.in) filled "$3" | install -D -m "$1" -- /dev/stdin "$root/$2" ;;
    *) install -D -m "$1" -- "$3" "$root/$2" ;;
  esac
}

uninstall_file() {
  rm -f -- "$root/$2"
}

each "$1_file"
# The one folder that is ours alone.
[[ $1 == install || ! -d $root/lib/cmake/offload ]] || rmdir --ignore-fail-on-non-empty -- "$root/lib/cmake/offload"
