#!/usr/bin/env bash
# Installs to a folder whose name must be quoted, builds and runs the example over what is there, found by pkg-config and by CMake, and removes it
# again: tests/install.sh
set -euo pipefail
unset MAKEFLAGS MAKELEVEL # of the `make` that runs this
cd "$(dirname "$0")/.."
folder=$(mktemp -d)
trap 'rm -rf "$folder"' EXIT
trap 'echo "wrong: tests/install.sh, line $LINENO"' ERR
prefix="$folder/a station's files"

files() { (cd "$1" && find . -type f | sort); }

# by_cmake PREFIX: the example, as a project that asks for the package.
by_cmake() {
  rm -rf "$folder/by cmake"
  {
    cmake -S examples -B "$folder/by cmake" -DCMAKE_PREFIX_PATH="$1" -DCMAKE_C_FLAGS="$strict" && cmake --build "$folder/by cmake"
  } >"$folder/log" || { cat "$folder/log"; exit 1; }
  tests/loader.sh "$folder/by cmake/loader"
}

# Where the package is asked for in these versions, it is found, or not: versions FOUND VERSION..
versions() {
  cmake -S "$folder/versions" -B "$folder/versions/build" -DCMAKE_PREFIX_PATH="$prefix" -DFOUND="$1" -DVERSIONS="${*:2}" >"$folder/log"
}

strict='-Wall -Wextra -Werror -pedantic'
make install PREFIX="$prefix"
cmp target/offload "$prefix/bin/offload"
cmp target/bin/offload_compare "$prefix/bin/offload-compare"
for page in offload offload-compare; do cmp "tool/$page.1" "$prefix/share/man/man1/$page.1"; done

export PKG_CONFIG_PATH=$prefix/lib/pkgconfig
# shellcheck disable=SC2162 # pkg-config writes a backslash before a space
read -a flags <<<"$(pkg-config --cflags --libs offload)"
# shellcheck disable=SC2086
${CC:-gcc} -std=c99 $strict -o "$folder/loader" examples/loader.c "${flags[@]}"
tests/loader.sh "$folder/loader"
version=$(pkg-config --modversion offload)
[ "$("$prefix/bin/offload" --version)" = "offload $version" ]
bundle=samples/bundles/driver.bundle
[ "$("$prefix/bin/offload-compare" $bundle $bundle)" = 'differences 0' ]
[ "$("$prefix/bin/offload" compare $bundle $bundle)" = 'differences 0' ]

by_cmake "$prefix"
mkdir "$folder/versions"
cat >"$folder/versions/CMakeLists.txt" <<'TEXT'
cmake_minimum_required(VERSION 3.13)
project(versions NONE)
separate_arguments(VERSIONS)
foreach(version ${VERSIONS})
  find_package(offload ${version} QUIET)
  if(NOT offload_FOUND EQUAL FOUND)
    message(FATAL_ERROR "${version}: found ${offload_FOUND}")
  endif()
endforeach()
TEXT
versions 1 "$version" "${version%.*}"
versions 0 "$version.1" "${version%.*}.99" 99.0

# The same files come through DESTDIR, which no file names; what is installed may be moved; and it goes again, and nothing else.
make install DESTDIR="$folder/a stage" PREFIX=/opt/offload
diff <(files "$prefix") <(files "$folder/a stage/opt/offload")
grep -qx 'prefix=/opt/offload' "$folder/a stage/opt/offload/lib/pkgconfig/offload.pc"
mv "$prefix" "$folder/moved files"
by_cmake "$folder/moved files"
touch "$folder/moved files/lib/other"
make uninstall PREFIX="$folder/moved files"
make uninstall DESTDIR="$folder/a stage" PREFIX=/opt/offload
[ "$(files "$folder/moved files")" = ./lib/other ]
[ -z "$(files "$folder/a stage")" ]
[ ! -e "$folder/moved files/lib/cmake/offload" ]
echo "installed, found by pkg-config and CMake, removed"
