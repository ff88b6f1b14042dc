#!/usr/bin/env bash
# Builds in a folder with a space in its name, without .git: once, and again only what a change calls for. What is missing is said before anything is
# tried: tests/build.sh. A program of this test stands for `rt`, and takes the libraries from target/staticlib, the program from target/bin. As `rt` does,
# it works in a crate's folder, leaves what it compiles in out/, runs a program too, and leaves one alone that it has compiled before, where no file says
# otherwise: here that is the stamp.
set -euo pipefail
unset MAKEFLAGS MAKELEVEL # of the `make` that runs this
cd "$(dirname "$0")/.."
folder=$(mktemp -d)
trap 'rm -rf "$folder"' EXIT
tried=0
wrong=0
mkdir "$folder"/{programs,user,root} "$folder/a station"
tar -c --exclude='crates/*/out' Makefile scripts tool include examples samples tests crates crates.txt | tar -xC "$folder/a station"
cat >"$folder/programs/rt" <<TEXT
#!/usr/bin/env bash
set -eu
crate=\$(basename "\$PWD")
mkdir -p out
[[ \$crate != "\${REFUSED-}" ]] || { echo 'logic=not-proved'; exit 1; }
case "\$*" in
  lib)
    [[ ! -e src/main.rt ]]
    echo "logic=proved in \$PWD"
    ! grep -q "^\$crate staticlib:" ../../crates.txt || cp $(printf %q "$PWD")/target/staticlib/lib\$crate.a out
    ;;
  run)
    [[ -e out/\$crate.stamp ]] || cp $(printf %q "$PWD")/target/bin/\$crate out
    touch out/\$crate.stamp
    out/\$crate
    ;;
  *) exit 2 ;;
esac
TEXT
echo 'echo 1000' >"$folder/user/id"
echo 'echo 0' >"$folder/root/id"
cat >"$folder/root/apt-get" <<'TEXT'
#!/usr/bin/env bash
[[ $1 == update ]] || ln -s "$(command -v gcc)" "$(dirname "$0")/${*: -1}"
TEXT
chmod +x "$folder"/{programs,user,root}/*
# The PATH without `rt`, and then with ours.
without=$(tr : '\n' <<<"$PATH" | while IFS= read -r place; do [[ -x $place/rt ]] || printf '%s:' "$place"; done)
without=${without%:}
PATH=$folder/programs:$without
cd "$folder/a station"

fail() {
  printf 'wrong: %s\n' "$1"
  cat said
  wrong=1
}

# expect STATUS PATTERN COMMAND..: how a command ends, and a line that it says.
expect() {
  local status=0
  "${@:3}" >said 2>&1 </dev/null || status=$?
  tried=$((tried + 1))
  [[ $status == "$1" ]] || fail "${*:3}: status $status"
  grep -q -- "$2" said || fail "${*:3}: does not say $2"
}

idle='Nothing to be done'
proves='^ *\([0-9]*\) of \1: offload proved'
proves_program='^ *\([0-9]*\) of \1: offload_compare proved'
links='-o target/offload tool/'

# Without `rt`; without a compiler, which root can install, and others cannot: nothing is tried then.
expect 2 'Rattle kit.*no Debian package' env PATH="$without" make demo
expect 2 'Rattle kit.*no Debian package' env PATH="$without" tests/gate.sh
expect 2 '^Missing: no-such-compiler. As root: apt-get install no-such-compiler$' env PATH="$folder/user:$PATH" make tool CC=no-such-compiler
[[ ! -e target/staticlib ]] || fail 'a proof was tried'

expect 0 "$proves" make tool
expect 0 "$idle" make tool
expect 0 "$idle" make library
expect 0 '^Installing the Debian packages new-compiler$' env PATH="$folder/root:$PATH" make tool CC=new-compiler
expect 0 "$links" make tool
for file in tool/file.h tool/main.c include/offload.h; do
  touch "$file"
  expect 0 "$links" make tool
  ! grep -q "$proves" said || fail "$file: proved again"
done
for file in crates/wire/src/lib.rt crates/offload/proofs crates.txt; do
  touch "$file"
  expect 0 "$proves" make tool
done
# What is not proved, the library or what it rests on, is not built, and all that was said is shown.
for crate in entry_id offload; do
  touch crates/wire/src/lib.rt
  expect 2 '^logic=not-proved$' env REFUSED=$crate make tool
  grep -q ": $crate NOT PROVED$" said || fail "$crate: not named"
  expect 0 "$proves" make tool
done
# Crates that the library does not rest on, and edits.
touch crates/examples/src/lib.rt crates/wire/must-fail/*
expect 0 "$idle" make tool
expect 0 '^env gcc.* -O1 ' make tool CFLAGS=-O1 CC='env gcc'
expect 0 "$idle" make tool CFLAGS=-O1 CC='env gcc'
# The program: proved when what it is made of changes, and made again where it is gone.
expect 0 "$proves_program" make program
expect 0 "$idle" make program
touch tool/main.c include/offload.h crates/examples/src/lib.rt
expect 0 "$idle" make program
for file in crates/wire/src/lib.rt crates/offload_compare/src/main.rt crates.txt; do
  touch "$file"
  expect 0 "$proves_program" make program
  expect 0 "$idle" make program
done
rm target/bin/offload_compare
expect 0 "$proves_program" make program
[[ -x target/bin/offload_compare ]] || fail 'no program'
expect 0 "$idle" make program
touch crates.txt
expect 2 ': offload_compare NOT PROVED$' env REFUSED=offload_compare make program
# One that does not print what its crate says.
echo more >>crates/offload_compare/stdout
expect 2 ': offload_compare NOT PROVED$' make program
sed -i '$d' crates/offload_compare/stdout
expect 0 "$proves_program" make program
expect 0 '' make install PREFIX="$folder/installed"
cmp target/bin/offload_compare "$folder/installed/bin/offload-compare" || fail 'the program is not installed'
expect 0 '^Next:' make demo
expect 0 '  make clean  ' make help
expect 0 '' make clean
[[ ! -e target && ! -e crates/offload/out ]] || fail 'make clean leaves something'

[[ $wrong == 0 ]] && echo "build: $tried ends as expected"
exit $wrong
