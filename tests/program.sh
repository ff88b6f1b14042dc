#!/usr/bin/env bash
# Holds what the proved program prints about two bundles, byte by byte, to what it must: tests/program.sh PROGRAM. Every line that differs is printed; the
# exit status is 1 then.
set -u
export LC_ALL=C
tests=$(realpath "$(dirname "$0")")
samples=$(realpath "$tests/../samples")
folder=$(mktemp -d)
trap 'rm -rf "$folder"' EXIT
mkdir "$folder/some files"
# A copy, for a user who may not read where it lies. The tests of the tool have this name for what they run.
offload=$folder/program
cp "$1" "$offload"
chmod 755 "$folder" "$folder/some files" "$offload"
cd "$folder/some files" || exit 1
# shellcheck source=tests/answers.sh
. "$tests/answers.sh"
# shellcheck source=tests/bundles.sh
. "$tests/bundles.sh"

# lines LINE..: each with a newline at its end.
lines() {
  printf '%s\n' "$@"
}

# prints REPORT WORD..: the report on what these words name, and nothing else. Its last newline is left out here.
prints() {
  lines "$1" >../wanted
  said 0 '' "${@:2}" >../output
  same ../output ../wanted
}

# one IMAGE [ID]: a bundle of one entry with these bytes as its image.
host='host-x86_64-unknown-linux-gnu-'
one() {
  local bytes
  # shellcheck disable=SC2059
  bytes=$(printf "$1" | wc -c)
  bundle "$bytes" "${2-$host}"
  # shellcheck disable=SC2059
  printf "$1"
}

# zeros COUNT
zeros() {
  head -c "$1" /dev/zero
}

# The case of the request.
one '\1\2\3' >left
one '\1\2\4' >right
prints "D $host 2
differences 1" left right
is 'the length' "$(wc -c <../output)" 49

# L, R and D.
one '\1\2' >short
one '\1' >byte
one '' >blank
bundle 0 >none
prints "D $host 2
differences 1" left short
prints "D $host 2
differences 1" short left
prints "D $host 1
differences 1" byte left
prints "D $host 0
differences 1" blank byte
prints "D $host 0
differences 1" byte blank
prints "L $host
differences 1" byte none
prints "R $host
differences 1" none byte
for file in left blank none; do
  cp $file again
  prints 'differences 0' $file again
  prints 'differences 0' $file $file
done
one '\0' >zero
one '\0\0' >zeros
prints "D $host 1
differences 1" zero zeros
one '\200\377' >high
one '\200\177' >other
prints "D $host 1
differences 1" high other

# The kind counts as it is spelled.
card=amdgcn-amd-amdhsa--gfx906
one image "hip-$card" >hip
one image "hipv4-$card" >hipv4
prints "L hip-$card
R hipv4-$card
differences 2" hip hipv4
prints "R hip-$card
L hipv4-$card
differences 2" hipv4 hip

# Spelling, order, offsets, features, and what lies between images or after them make no difference.
{ bundle '0+3 3+3' hip-a-b-c-gfx1:y-:x+ host-a-b-c; printf onetwo; } >left
{ bundle '5+3 1+3' host-a-b-c-- hip-a-b-c--gfx1:x+:y-; printf '.one.two...'; } >right
prints 'differences 0' left right
{ bundle '5+3 1+3' host-a-b-c-- hip-a-b-c--gfx1:x+:y-; printf '.ond.twx...'; } >right
prints 'D hip-a-b-c--gfx1:x+:y- 2
D host-a-b-c-- 2
differences 2' left right
{ bundle '5+3 1+3' host-a-b-c-- hip-a-b-c--gfx1:x-:y-; printf '.one.two...'; } >right
prints 'L hip-a-b-c--gfx1:x+:y-
R hip-a-b-c--gfx1:x-:y-
differences 2' left right
# Two entries that share an image are like two with equal images.
{ bundle 3 hip-a-b-c host-a-b-c; printf one; } >left
{ bundle '0+3 3+3' hip-a-b-c host-a-b-c; printf oneone; } >right
prints 'differences 0' left right
{ bundle '0+3 3+3' hip-a-b-c host-a-b-c; printf oneony; } >right
prints 'D host-a-b-c-- 2
differences 1' left right

# IDs rise in byte order, whatever the order in the files is; a prefix comes first.
bundle 0 openmp-a-b-c host-a-b-c hipv4-a-b-c-gfx1 hip-a-b-c-e-gfx10 hip-a-b-c-e-gfx1 hip-a-b-c.-e hip-a-b-cc-e >left
bundle 0 hip-Z-b-c hip-a-b-c-e-gfx2 hip-a-b-c-e-gfx1-x hip-a_-b-c hip-a-b-c--gfx1:a+ host-a-b-c >right
prints 'R hip-Z-b-c--
R hip-a-b-c--gfx1:a+
L hip-a-b-c-e-gfx1
R hip-a-b-c-e-gfx1-x
L hip-a-b-c-e-gfx10
R hip-a-b-c-e-gfx2
L hip-a-b-c.-e-
L hip-a-b-cc-e-
R hip-a_-b-c--
L hipv4-a-b-c--gfx1
L openmp-a-b-c--
differences 11' left right
bundle 0 hip-a-b-c-gfx1 >left
bundle 0 hip-a-b-c-gfx1:a+ hip-a-b-c-gfx1:a- >right
prints 'L hip-a-b-c--gfx1
R hip-a-b-c--gfx1:a+
R hip-a-b-c--gfx1:a-
differences 3' left right

# The first byte that differs, of every number of digits; later bytes may differ too.
one "$(printf 'x%.0s' {1..30000})" >left
for at in 0 1 9 10 99 100 255 256 999 1000 9999 10000 29999; do
  cp left right
  printf y | dd of=right bs=1 seek=$((32 + 24 + ${#host} + at)) conv=notrunc status=none
  prints "D $host $at
differences 1" left right
  [ $at = 29999 ] || printf y | dd of=right bs=1 seek=$((32 + 24 + ${#host} + 29999)) conv=notrunc status=none
  prints "D $host $at
differences 1" right left
done
one "$(printf 'x%.0s' {1..29999})" >right
prints "D $host 29999
differences 1" left right

# Real files.
aligned=$samples/bundles/aligned.bundle
driver=$samples/bundles/driver.bundle
prints 'D hipv4-amdgcn-amd-amdhsa--gfx1030 16
D hipv4-amdgcn-amd-amdhsa--gfx906:sramecc-:xnack+ 16
L hipv4-amdgcn-amd-amdhsa--gfx90a:sramecc+:xnack-
R host-x86_64-unknown-linux--
L host-x86_64-unknown-linux-gnu-
differences 5' "$aligned" "$driver"
for sample in "$samples"/bundles/*; do prints 'differences 0' "$sample" "$sample"; done
prints 'refused right 21' "$aligned" "$samples/refused/overlap.bundle"
prints 'refused left 2' "$samples/binaries/one.bin" "$aligned"
rm ./*

# Each number refuses either side beside a sound bundle; where both are refused, the left one is named.
cards=$samples/bundles/three-cards.bundle
make_refused "$samples"
zeros 32769 >length
refused[1]=length
for number in "${!refused[@]}"; do
  file=${refused[$number]}
  prints "refused left $number" "$file" "$cards"
  prints "refused right $number" "$cards" "$file"
  for other in "${refused[@]}"; do prints "refused left $number" "$file" "$other"; done
done
# Others with these numbers: no bytes, 65 entries, an ID that is empty or has 257 bytes.
: >empty
ids=()
for k in {10..74}; do ids+=("host-a$k-b-c"); done
bundle 0 "${ids[@]}" >many
bundle 0 '' >nameless
bundle 0 "host-$(printf 'a%.0s' {1..246})-b-c--" >long
prints 'refused left 2' empty "$cards"
prints 'refused right 2' "$cards" empty
prints 'refused right 3' "$cards" many
prints 'refused left 4' nameless "$cards"
prints 'refused right 4' "$cards" long
bundle 0 "${ids[@]::64}" >most
prints 'differences 0' most most
rm ./*

# 32,768 bytes, of which an image or what follows the images may be the most; and one byte more.
at=$((32 + 24 + ${#host}))
bundle $((32768 - at)) $host >image
zeros $((32768 - at)) >>image
bundle 1 $host >rest
truncate -s 32768 rest
bundle $((32767 - at)) $host >less
zeros $((32767 - at)) >>less
is 'the lengths' "$(stat -c %s image rest less | tr '\n' ' ')" '32768 32768 32767 '
prints 'differences 0' image image
prints 'differences 0' rest rest
prints "D $host 1
differences 1" image rest
prints "D $host $((32767 - at))
differences 1" image less
prints "D $host $((32767 - at))
differences 1" less image
for file in image rest; do
  cp $file long
  printf . >>long
  is 'the length' "$(stat -c %s long)" 32769
  prints 'refused left 1' long $file
  prints 'refused right 1' $file long
  prints 'refused left 1' long long
done
truncate -s 1G long
prints 'refused left 1' long image
prints 'refused right 1' image long
prints 'refused right 1' image /dev/zero
prints 'refused left 1' /dev/zero /dev/zero
rm ./*

# What cannot be read is empty: a file that is missing, a directory, an argument that is missing or empty, and one that fails when it is read.
one image >file
mkdir closed
prints 'refused left 2'
prints 'refused right 2' file
prints 'refused left 2' missing
for path in missing closed . closed/ file/ missing/file '' - -- --json /dev/null /proc/self/mem; do
  prints 'refused left 2' "$path" file
  prints 'refused right 2' file "$path"
  prints 'refused left 2' "$path" "$path"
done
ln -s file link
ln -s missing lost
ln -s loop loop
prints 'differences 0' link file
prints 'differences 0' "$PWD/file" ./link
prints 'refused left 2' lost file
prints 'refused right 2' file loop
name=$'a \n"\xc3\xbf'
cp file "$name"
cp file ./--json
prints 'differences 0' "$name" --json
rm "$name" ./--json
# A name that is not UTF-8.
name=$'\xff'
cp file "$name"
prints 'refused left 2' "$name" file
rm "$name"
# More arguments are not looked at.
one another >other
prints 'differences 0' file file other
prints "D $host 0
differences 1" file other missing ''
prints 'refused right 2' file '' file
# Paths: as long as the system takes, and longer.
# path LENGTH: a path so long of the file, or of "file." where the length is odd.
path() {
  local name=file
  [ $(($1 % 2)) = 0 ] || name=file.
  printf './%.0s' $(seq $((($1 - ${#name}) / 2)))
  printf %s $name
}
cp file file.
is 'the lengths' "$(path 4094 | wc -c) $(path 4095 | wc -c)" '4094 4095'
prints 'differences 0' "$(path 4094)" "$(path 4095)"
prints 'differences 0' "$(path 4095)" file
for length in 4096 4097 4098 8190 8192 65536 100001; do
  prints 'refused left 2' "$(path $length)" file
  prints 'refused right 2' file "$(path $length)"
done
prints 'refused left 2' "$(printf 'a%.0s' {1..256})" file
rm -r ./*

# Pipes: each is read to its end, however slowly it comes, or to one byte too many.
{ bundle '0+3 3+3' hip-a-b-c host-a-b-c; printf onetwo; } >file
{ bundle '0+3 3+3' hip-a-b-c host-a-b-c; printf onetwO; } >other
slowly() {
  sleep 0.1
  head -c 10 "$1"
  sleep 0.1
  tail -c +11 "$1"
}
difference='D host-a-b-c-- 2
differences 1'
prints 'differences 0' <(cat file) file
prints "$difference" file <(cat other)
prints "$difference" <(slowly file) <(slowly other)
prints 'refused left 2' <(:) file
prints 'refused right 6' file <(head -c -1 other)
mkfifo first second
slowly other >second &
slowly file >first &
prints "$difference" first second
wait
cp file long
truncate -s 32768 long
prints 'differences 0' <(slowly long) file
prints 'refused right 1' file <(slowly long; sleep 0.1; printf .)
prints "$difference" /dev/stdin other <file
prints "$difference" file other <&-
rm first second

# Standard output that is a file, a pipe, full, closed, or has no reader: no report is lost, and the program ends.
lines "$difference" >wanted
said 0 '' file other >out
same out wanted
said 0 '' file other >>out
cat wanted wanted >twice
same out twice
mkfifo pipe
cat pipe >out &
said 0 '' file other >pipe
wait $!
same out wanted
# ends WHERE: the program ends by itself, or by the signal of a pipe without a reader; standard output is the caller's.
ends() {
  local status
  timeout 60 "$offload" file other 2>../error
  status=$?
  is "$1: ended by a signal, or not at all" "$((status >= 124 && status != 141))" 0
}
ends 'a full output' >/dev/full
ends 'a closed output' >&-
ends 'an output without a reader' > >(exec true)
{ bundle '0+3 3+3' hip-a-b-c host-a-b-c; printf onetwo; } >kept
same file kept
rm ./*

# 64 entries against 64, with IDs of 256 bytes. The longest report: all different.
# long_id TEXT: an ID so long, with a text of four bytes at its front.
filler=$(printf 'a%.0s' {1..241})
long_id() {
  printf 'host-%s%s-b-c--' "$1" "$filler"
}
lefts=()
rights=()
wanted=()
dashed=()
for k in {10..73}; do
  lefts+=("$(long_id "$k.l")")
  rights+=("$(long_id "$k.r")")
  wanted+=("L ${lefts[-1]}" "R ${rights[-1]}")
  dashed+=("D ${lefts[-1]} 1499")
done
is 'the length of an ID' ${#lefts[0]} 256
bundle 1500 "${lefts[@]}" >left
bundle 1500 "${rights[@]}" >right
zeros 1500 | tee -a left >>right
prints "$(lines "${wanted[@]}" 'differences 128')" left right
is 'the length of the longest report' "$(wc -c <../output)" 33168
prints 'differences 0' left left
prints 'differences 0' right right
# Every image differs; the last entry alone; and entries that are missing at either end.
{ bundle 1500 "${lefts[@]}"; zeros 1499; printf x; } >right
prints "$(lines "${dashed[@]}" 'differences 64')" left right
{ bundle "$(printf '1500 %.0s' {1..63})1500+1500" "${lefts[@]}"; zeros 2999; printf x; } >right
prints "$(lines "${dashed[63]}" 'differences 1')" left right
{ bundle 1500 "${lefts[@]:1:62}"; zeros 1500; } >right
prints "$(lines "L ${lefts[0]}" "L ${lefts[63]}" 'differences 2')" left right
prints "$(lines "R ${lefts[0]}" "R ${lefts[63]}" 'differences 2')" right left
bundle 0 >right
prints "$(lines "${lefts[@]/#/L }" 'differences 64')" left right
prints "$(lines "${lefts[@]/#/R }" 'differences 64')" right left
# In the order of the file backwards, too.
backwards=()
for id in "${lefts[@]}"; do backwards=("$id" "${backwards[@]}"); done
{ bundle 1500 "${backwards[@]}"; zeros 1500; } >right
prints 'differences 0' left right
# A long report goes through a pipe whole.
{ bundle 1500 "${rights[@]}"; zeros 1500; } >right
lines "${wanted[@]}" 'differences 128' >../wanted
"$offload" left right | { sleep 0.1; cat; } >../output
same ../output ../wanted
"$offload" left right | head -c 1 >../output
is 'the first byte' "$(<../output)" L
rm ./*

# A user whom the system refuses the file. Root reads every file, so that another user runs the program where root runs this.
one image >file
cp file hidden
chmod 000 hidden
[ "$(id -u)" != 0 ] || user=(setpriv --reuid=65534 --regid=65534 --clear-groups)
if "${user[@]}" test -x "$offload" 2>../error; then
  prints 'refused left 2' hidden file
  prints 'refused right 2' file hidden
  prints 'differences 0' file file
else
  echo 'offload-compare: no other user here: what the system refuses is not tried'
fi

[ $wrong = 0 ] && echo "offload-compare: $tried answers as expected"
exit $wrong
