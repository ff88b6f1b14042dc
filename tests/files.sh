#!/usr/bin/env bash
# Gives the tool every kind of input and output: tests/files.sh OFFLOAD. Every line that differs is printed; the exit status is 1 then.
# Root gives it no output outside the folder of the test: a tool that is wrong would replace the machine's own devices.
set -u
tests=$(realpath "$(dirname "$0")")
samples=$(realpath "$tests/../samples")
image=$samples/images/gfx1030.o
patched=$samples/images/gfx1030.co
card=hip-amdgcn-amd-amdhsa--gfx1030
size=$(stat -c %s "$image")
line="entry 7, *size $size*"
patch_line="patch, *size $(stat -c %s "$patched")*"
main_line="main, *size $size*"
folder=$(mktemp -d)
trap 'chmod -R u+rwX "$folder"; rm -rf "$folder"' EXIT
mkdir "$folder/some files"
# Copies, for a user who may not read where these lie.
offload=$folder/offload
cards=$folder/cards
driver=$folder/driver   # has another image for the card
other=$folder/other     # has none
damaged=$folder/damaged # four offload binaries, of which the second is damaged
cp "$1" "$offload"
cp "$samples/bundles/three-cards.bundle" "$cards"
cp "$samples/bundles/driver.bundle" "$driver"
cp "$samples/bundles/alternative.bundle" "$other"
cp "$samples/binaries/kinds.bin" "$damaged"
printf x | dd of="$damaged" bs=1 seek=2208 conv=notrunc status=none
chmod 755 "$folder" "$offload"
chmod 644 "$cards" "$driver" "$other" "$damaged"
cd "$folder/some files" || exit 1
umask 022
# shellcheck source=tests/answers.sh
. "$tests/answers.sh"
# shellcheck source=tests/bundles.sh
. "$tests/bundles.sh"

# Begins again with an empty folder.
clear() {
  chmod -R u+rwX .
  find . -mindepth 1 -delete
}

# writes OUT [FILE]: the image is written to OUT, and is then what FILE holds.
writes() {
  expect 0 "$line" '' pick "$cards" "$card" -o "$1"
  same "${2:-$1}" "$image"
}

# refuses OUT REASON: nothing is written to OUT.
refuses() {
  expect 3 '' "offload: cannot write $1: $2" pick "$cards" "$card" -o "$1"
}

# A link stays, and what it names is written: a file, a link's file, a file in another folder, a new file.
mkdir v1 v2 links
printf old >v1/k
ln -s v1/k current
writes current v1/k
ln -s current again
printf old >v1/k
writes again v1/k
ln -s ../v1/k links/far
printf old >v1/k
writes links/far v1/k
ln -s links door
ln -s "$PWD/door/far" whole
printf old >v1/k
writes door/far v1/k
printf old >v1/k
writes whole v1/k
ln -s ../v2/new links/new
writes links/new v2/new
for link in current:v1/k again:current links/far:../v1/k links/new:../v2/new "whole:$PWD/door/far"; do
  is "the link ${link%%:*}" "$(readlink "${link%%:*}")" "${link#*:}"
done
holds again current door links links/far links/new v1 v1/k v2 v2/new whole
clear

# Links that lead nowhere.
ln -s b a
ln -s a b
ln -s self self
ln -s missing/new lost
ln -s "$(printf '%0255d' 0)x" long
refuses a 'Too many levels of symbolic links'
refuses self 'Too many levels of symbolic links'
refuses lost 'No such file or directory'
refuses long 'File name too long'
expect 3 '' 'offload: cannot read a: Too many levels of symbolic links' check a
is 'the link a' "$(readlink a)" b
holds a b long lost self
clear

# As many links as the system follows, those of folders too.
ln -s file 0
for k in {1..40}; do ln -s $((k - 1)) "$k"; done
writes 39 file
rm file
writes 39 file
refuses 40 'Too many levels of symbolic links'
is 'the link 39' "$(readlink 39)" 38
ln -s . here
ln -s here/file a0
for k in {1..20}; do ln -s here/a$((k - 1)) "a$k"; done
writes a19 file
refuses a20 'Too many levels of symbolic links'
clear

# No device, pipe or folder is written, by way of a link either.
refuses_behind_links() {
  ln -s "$1" link
  ln -s link second
  refuses link 'Not a regular file'
  refuses second 'Not a regular file'
  is "the links to $1" "$(readlink link) $(readlink second)" "$1 link"
  rm link second
}
mkfifo pipe
mkdir closed
refuses_behind_links pipe
refuses pipe 'Not a regular file'
ln -s closed link
refuses link 'Is a directory'
refuses link/ 'Is a directory'
refuses closed 'Is a directory'
refuses . 'Is a directory'
refuses new/ 'No such file or directory'
refuses '' 'No such file or directory'
is 'the pipe' "$(stat -c %F pipe)" fifo
holds closed link pipe
clear

# A file keeps its mode; a read-only one stays as it was; a new one has the mode that any new file has.
for mode in 600 755 664 222; do
  printf old >file
  chmod $mode file
  expect 0 "$line" '' pick "$cards" "$card" -o file
  is 'the mode' "$(stat -c %a file)" $mode
  chmod u+r file
  same file "$image"
done
printf old >kept
ln -s file link
for mode in 444 400 555 0; do
  cp --remove-destination kept file
  chmod $mode file
  refuses file 'Permission denied'
  refuses link 'Permission denied'
  is 'the mode' "$(stat -c %a file)" $mode
  chmod u+r file
  same file kept
done
for mask in 027:640 077:600 000:666; do
  rm -f file
  umask "${mask%:*}"
  writes link file
  umask 022
  is 'the mode' "$(stat -c %a file)" "${mask#*:}"
done
holds file kept link
clear

# Long names.
name=$(printf '%0250d' 0)
writes "$name"
writes "$name"
writes "${name}12345"
refuses "${name}123456" 'File name too long'
holds "$name" "${name}12345"
clear

# Standard output has the image alone.
said 0 "$line" pick "$cards" "$card" -o - >file
same file "$image"
said 0 "$line" pick "$cards" "$card" -o - >>file
cat "$image" "$image" >twice
same file twice
mkfifo pipe
cat pipe >file &
said 0 "$line" pick "$cards" "$card" -o - >pipe
wait $!
same file "$image"
said 3 'offload: cannot write *: No space left on device' pick "$cards" "$card" -o - >/dev/full
said 3 'offload: cannot write *: Bad file descriptor' pick "$cards" "$card" -o - >&-
said 0 'written, length *' normalise "$cards" -o - >normal
expect 0 'written, length *' '' normalise "$cards" -o file
same file normal
expect 0 "$line" '' pick "$cards" "$card" -o ./-
same ./- "$image"
holds - file normal pipe twice
clear

# A link to an open file is refused, and stays.
ln -s /proc/self/fd/1 out
printf 'kept\n' >kept
cp kept file
open='A link to an open file (standard output is -)'
said 3 "offload: cannot write out: $open" pick "$cards" "$card" -o out >>file
said 3 "offload: cannot write /proc/self/fd/1: $open" pick "$cards" "$card" -o /proc/self/fd/1 >>file
same file kept
mkfifo pipe
cat pipe >file &
said 3 'offload: cannot write out: Not a regular file' pick "$cards" "$card" -o out >pipe
wait $!
is 'what the pipe got' "$(<file)" ''
cp kept deleted
exec 4>>deleted
rm deleted
said 3 "offload: cannot write out: $open" pick "$cards" "$card" -o out >&4
exec 4>&-
is 'the link' "$(readlink out)" /proc/self/fd/1
holds file kept out pipe
clear

# A file that grows above what is allowed, and signals: the file is whole or as it was.
printf old >file
cp file kept
(
  ulimit -f 1
  refuses file 'File too large'
  refuses new 'File too large'
  said 3 'offload: cannot write *: File too large' pick "$cards" "$card" -o - >limited
  exit $wrong
) || wrong=1
same file kept
holds file kept limited
clear
# A normal form of 32 MiB: the bundle of one entry, its ID as canonical forms are.
large=$((32 << 20))
bundle $((large - 68)) host-a-b-c-- >large
truncate -s $large large
expect 0 "written, length $large" '' normalise large -o whole
same whole large
printf old >kept
for delay in 0.005 0.01 0.02 0.03 0.05; do
  cp kept whole
  timeout -s TERM $delay "$offload" normalise large -o whole >../output
  is 'neither old nor new' "$(cmp -s whole kept || cmp -s whole large || echo whole)" ''
  holds kept large whole
done
clear

# Every kind of input: a file, a pipe, a pipe with a name, whose writer comes late and is slow.
accepted='accepted, entries 8*'
slowly() {
  sleep 0.1
  head -c 100 "$cards"
  sleep 0.1
  tail -c +101 "$cards"
}
mkfifo pipe
expect 0 "$accepted" '' check "$cards"
expect 0 "$accepted" '' check - <"$cards"
expect 0 "$accepted" '' check - < <(slowly)
expect 0 "$accepted" '' check <(cat "$cards")
slowly >pipe &
expect 0 "$accepted" '' check pipe
wait $!
expect 0 "$line" '' pick - "$card" -o file < <(cat "$cards")
same file "$image"
said 0 "$line" pick <(cat "$cards") "$card" -o - >file
same file "$image"
{ printf 123; cat "$cards"; } >late
{
  head -c 3 >/dev/null
  expect 0 "$accepted" '' check -
} <late
{
  head -c 3 >/dev/null
  expect 0 "$line" '' pick - "$card" -o file
} <late
same file "$image"
holds file late pipe
clear

# So with a patch, of which either file may be standard input. Each is read to its end, whoever comes first.
expect 0 "$patch_line" '' pick --patch - "$cards" "$card" -o file < <(cat "$driver")
same file "$patched"
expect 0 "$main_line" '' pick --patch "$other" - "$card" -o file < <(slowly)
same file "$image"
expect 0 "$patch_line" '' pick --patch <(cat "$driver") <(slowly) "$card" -o file
same file "$patched"
expect 0 "$main_line" '' pick --patch <(cat "$other") <(slowly) "$card" -o file
same file "$image"
expect 0 'patch, *' '' pick --patch <(slowly) <(cat "$driver") "$card" -o file
same file "$image"
said 0 "$main_line" pick --patch <(cat "$other") - "$card" -o - < <(cat "$cards") >file
same file "$image"
mkfifo first second
slowly >second &
cat "$other" >first &
expect 0 "$main_line" '' pick --patch first second "$card" -o file
wait
same file "$image"
holds file first second
clear

# So with two bundles that are compared: each is read to its end, whoever comes first, and neither is changed.
report='L *
R *
differences 11'
# compares LEFT RIGHT: the cards and the driver's bundle, by these names.
compares() {
  expect 7 "$report" '' compare "$1" "$2"
  is 'lines of the report' "$(wc -l <../output)" 12
}
compares "$cards" "$driver"
compares - "$driver" <"$cards"
compares "$cards" - < <(cat "$driver")
compares <(slowly) "$driver"
compares <(slowly) <(cat "$driver")
compares - <(cat "$driver") < <(slowly)
mkfifo first second
cat "$driver" >second &
slowly >first &
compares first second
wait
{ printf 123; cat "$cards"; } >late
{
  head -c 3 >/dev/null
  compares - "$driver"
} <late
cp "$cards" one
cp "$driver" two
ln -s one left
chmod 444 one
compares left two
expect 0 'differences 0' '' compare left one
expect 0 'differences 0' '' compare one <(slowly)
expect 0 'differences 0' '' compare "$cards" /dev/stdin <one
same one "$cards"
same two "$driver"
said 7 '' compare one two >file
said 7 '' compare one two >>file
said 7 '' compare one two >kept
cat kept kept >twice
same file twice
mkfifo pipe
cat pipe >file &
said 7 '' compare one two >pipe
wait $!
same file kept
said 3 'offload: cannot write standard output: No space left on device' compare one two >/dev/full
said 3 'offload: cannot write standard output: Bad file descriptor' compare one two >&-
holds file first kept late left one pipe second twice two
clear

# The output may be a file that is read, the patch or the main bundle: it holds the image then, or what it held. The other is left alone.
# replaces OUT LINE IMAGE PATCH: OUT is patch or main.
replaces() {
  cp "$4" patch
  cp "$cards" main
  expect 0 "$2" '' pick --patch patch main "$card" -o "$1"
  same "$1" "$3"
}
replaces patch "$patch_line" "$patched" "$driver"
same main "$cards"
replaces main "$patch_line" "$patched" "$driver"
same patch "$driver"
replaces patch "$main_line" "$image" "$other"
same main "$cards"
replaces main "$main_line" "$image" "$other"
same patch "$other"
cp "$cards" main
ln -s patch link
expect 4 '' $'*: 10 NONE, *\n  patch is left as it was.' pick --patch patch main "${card}x" -o patch
expect 1 '' $'*: 9 QUERY, *\n  main is left as it was.' pick --patch patch main gfx1030 -o main
expect 0 "$main_line" '' pick --patch link main "$card" -o link
is 'the link' "$(readlink link)" patch
same patch "$image"
expect 1 '' $'offload: link: 2 MAGIC: *\n  link is left as it was.' pick --patch link main "$card" -o link
chmod 444 main
expect 3 '' 'offload: cannot write main: Permission denied' pick --patch "$driver" main "$card" -o main
same main "$cards"
same patch "$image"
holds link main patch
clear

# Recovering takes every kind of input, and writes every kind of output as picking does.
recovered='skipped, start 2208, length 4072
written, binaries 3, length 6000*'
{ head -c 2208 "$damaged"; tail -c +6281 "$damaged"; } >kept
# recovers FILE: what it gives, which is written to a new file.
recovers() {
  rm -f file
  expect 5 "$recovered" '' recover "$1" -o file
  same file kept
}
recovers "$damaged"
recovers - <"$damaged"
recovers - < <(cat "$damaged")
recovers <(head -c 5000 "$damaged"; sleep 0.1; tail -c +5001 "$damaged")
mkfifo pipe
cat "$damaged" >pipe &
recovers pipe
wait $!
{ printf 123; cat "$damaged"; } >late
{
  head -c 3 >/dev/null
  recovers -
} <late
ln -s "$damaged" link
recovers link
# The output: by way of a link, with its mode, standard output, and what is no file or may not be written.
ln -sf file link
printf old >file
chmod 640 file
expect 5 "$recovered" '' recover "$damaged" -o link
same file kept
is 'the link and the mode' "$(readlink link) $(stat -c %a file)" 'file 640'
chmod 444 file
expect 3 '' 'offload: cannot write link: Permission denied' recover "$damaged" -o link
expect 3 '' 'offload: cannot write pipe: Not a regular file' recover "$damaged" -o pipe
expect 3 '' 'offload: cannot write .: Is a directory' recover "$damaged" -o .
same file kept
chmod 644 file
said 5 "$recovered" recover "$damaged" -o - >file
said 5 "$recovered" recover "$damaged" -o - >>file
cat kept kept >twice
same file twice
cat pipe >file &
said 5 "$recovered" recover "$damaged" -o - >pipe
wait $!
same file kept
said 3 'offload: cannot write *: No space left on device' recover "$damaged" -o - >/dev/full
said 3 'offload: cannot write *: Bad file descriptor' recover "$damaged" -o - >&-
ln -sf /proc/self/fd/1 out
said 3 "offload: cannot write out: $open" recover "$damaged" -o out >>twice
printf old >file
cp file old
(
  ulimit -f 1
  expect 3 '' 'offload: cannot write file: File too large' recover "$damaged" -o file
  expect 3 '' 'offload: cannot write new: File too large' recover "$damaged" -o new
  exit $wrong
) || wrong=1
same file old
holds file kept late link old out pipe twice
# The output may be the file that is read, by way of a link too; where no binary is found, it is left as it was.
cp "$damaged" file
expect 5 "$recovered" '' recover file -o link
same file kept
expect 0 'written, binaries 3, length 6000' '' recover link -o file
same file kept
is 'the link' "$(readlink link)" file
cp "$cards" file
expect 6 'skipped, start 0, length 17170' $'offload: link: *It looks like a bundle.\n  *\n  link is left as it was.' recover link -o link
same file "$cards"
clear
# 32 MiB in two binaries, and signals.
# binary SIZE: the first 72 bytes of a binary so long.
binary() {
  local value
  printf '\x10\xff\x10\xad\1\0\0\0'
  for value in "$1" 32 40 0 0 0 72 $(($1 - 72)); do word "$value"; done
}
half=$((large / 2))
binary $half >large
truncate -s $half large
binary $half >>large
truncate -s $large large
expect 0 "written, binaries 2, length $large" '' recover large -o whole
same whole large
printf old >kept
for delay in 0.005 0.01 0.02 0.03 0.05; do
  cp kept whole
  timeout -s TERM $delay "$offload" recover large -o whole >../output
  is 'neither old nor new' "$(cmp -s whole kept || cmp -s whole large || echo whole)" ''
  holds kept large whole
done
clear

# Inputs that hold nothing, and that cannot be read.
: >empty
mkdir folder
magic='offload: *: 2 MAGIC*'
expect 1 '' "$magic" check empty
expect 1 '' "$magic" check - <empty
expect 1 '' "$magic" check - < <(:)
expect 1 '' "$magic" check <(:)
expect 1 '' "$magic" check /dev/null
expect 1 '' 'offload: empty: 2 MAGIC*' pick --patch empty "$cards" "$card"
expect 1 '' 'offload: /dev/null: 2 MAGIC*' pick --patch "$driver" /dev/null "$card"
for file in empty /dev/null -; do
  expect 1 '' "$magic" compare "$file" "$cards"
  expect 1 '' "$magic" compare "$cards" "$file"
  expect 0 'written, binaries 0, length 0' '' recover "$file" -o file
  same file empty
  rm file
done
expect 1 '' 'offload: empty: 2 MAGIC*' compare empty empty
expect 3 '' 'offload: cannot read folder: Is a directory' compare folder "$cards"
expect 3 '' 'offload: cannot read folder: Is a directory' compare "$cards" folder
expect 3 '' 'offload: cannot read folder: Is a directory' compare empty folder
expect 3 '' 'offload: cannot read standard input: Bad file descriptor' compare - "$cards" <&-
expect 3 '' 'offload: cannot read standard input: Bad file descriptor' compare "$cards" - <&-
expect 3 '' 'offload: cannot read folder: Is a directory' recover folder -o file
expect 3 '' 'offload: cannot read standard input: Bad file descriptor' recover - -o file <&-
expect 3 '' 'offload: cannot read missing: No such file or directory' recover missing -o file
expect 3 '' 'offload: cannot read folder: Is a directory' check folder
expect 3 '' 'offload: cannot read *: Is a directory' check - <folder
expect 3 '' 'offload: cannot read *: Bad file descriptor' check - <&-
expect 3 '' 'offload: cannot read folder: Is a directory' pick --patch folder "$cards" "$card"
expect 3 '' 'offload: cannot read standard input: Bad file descriptor' pick --patch - "$cards" "$card" <&-
expect 3 '' 'offload: cannot read standard input: Bad file descriptor' pick --patch "$driver" - "$card" <&-
expect 3 '' 'offload: cannot read missing: No such file or directory' check missing
holds empty folder
clear

# As long as is allowed, and one byte longer, or without end.
limit=1073741824
expect 0 "$accepted" '' check - < <(cat "$cards" - < <(head -c $((limit - $(stat -c %s "$cards"))) /dev/zero))
expect 1 '' 'offload: *: 1 LENGTH*' check - < <(head -c $((limit + 1)) /dev/zero)
expect 1 '' 'offload: *: 1 LENGTH*' check /dev/zero
expect 1 '' 'offload: /dev/zero: 1 LENGTH*' recover /dev/zero -o file
expect 1 '' 'offload: /dev/zero: 1 LENGTH*' compare "$cards" /dev/zero
expect 0 'differences 0' '' compare "$cards" - < <(cat "$cards" - < <(head -c $((32768 - $(stat -c %s "$cards"))) /dev/zero))
expect 1 '' 'offload: standard input: 1 LENGTH*' compare - "$cards" < <(cat "$cards" - < <(head -c $((32769 - $(stat -c %s "$cards"))) /dev/zero))
truncate -s $((limit - 288)) long
cat "$samples/binaries/small.bin" >>long
expect 5 "skipped, start 0, length $((limit - 288))
written, binaries 2, length 288" '' recover long -o file
same file "$samples/binaries/small.bin"
printf . >>long
expect 1 '' $'offload: long: 1 LENGTH*\n  file is left as it was.' recover long -o file
holds file long
clear

# As a user whom the system refuses something: not root, in a folder that he may write.
me=$(id -u)
chmod 777 .
if [ "$me" = 0 ]; then
  user=(setpriv --reuid=65534 --regid=65534 --groups=65533)
  "${user[@]}" test -x "$offload" 2>/dev/null && : >file && chown 65534:65533 file 2>/dev/null || user=(skip)
  clear
fi
if [ "${user[*]}" = skip ]; then
  echo 'offload: no other user here: what the system refuses is not tried'
else
  [ "$me" = 0 ] && me=65534
  mkdir closed hidden drop
  printf old >kept
  for file in closed/file hidden/file own; do
    cp kept $file
    chmod 666 $file
  done
  ln -s closed/new shut
  chmod 466 own
  chmod 555 closed
  chmod 000 hidden
  chmod 333 drop
  [ "$(id -u)" = 0 ] && chown "$me" closed hidden drop own
  refuses closed/file 'Permission denied'
  refuses closed/new 'Permission denied'
  refuses shut 'Permission denied'
  refuses hidden/file 'Permission denied'
  refuses own 'Permission denied'
  expect 3 '' 'offload: cannot read hidden/file: Permission denied' check hidden/file
  expect 3 '' 'offload: cannot read hidden/file: Permission denied' pick --patch hidden/file "$cards" "$card"
  expect 3 '' 'offload: cannot read hidden/file: Permission denied' pick --patch "$driver" hidden/file "$card"
  expect 3 '' 'offload: cannot read hidden/file: Permission denied' compare hidden/file "$cards"
  expect 3 '' 'offload: cannot read hidden/file: Permission denied' compare "$cards" hidden/file
  expect 3 '' 'offload: cannot read hidden/file: Permission denied' recover hidden/file -o new
  expect 3 '' 'offload: cannot write closed/new: Permission denied' recover "$damaged" -o closed/new
  expect 3 '' 'offload: cannot write own: Permission denied' recover "$damaged" -o own
  expect 3 '' 'offload: cannot read drop: Permission denied' check drop
  writes drop/new
  is 'the owner' "$(stat -c %u drop/new)" "$me"
  chmod u+rwx closed hidden drop own
  same closed/file kept
  same hidden/file kept
  same own kept

  # The machine's own devices and links to open files: this user can do them no harm, whatever the tool does.
  refuses_behind_links /dev/null
  refuses_behind_links /dev/full
  refuses /dev/null 'Not a regular file'
  cp kept file
  chmod 666 file
  said 3 "offload: cannot write /dev/stdout: $open" pick "$cards" "$card" -o /dev/stdout >>file
  said 3 "offload: cannot write /dev/fd/1: $open" pick "$cards" "$card" -o /dev/fd/1 >>file
  same file kept
  is '/dev/stdout' "$(readlink /dev/stdout)" /proc/self/fd/1
  holds closed closed/file drop drop/new file hidden hidden/file kept own shut
  clear
fi

# Owner and group stay where root writes, or a user whose group it is; root's file stays as it was.
if [ "$(id -u)" = 0 ] && [ "${user[*]}" != skip ]; then
  printf old >kept
  cp kept file
  refuses file 'Permission denied'
  same file kept
  chmod 660 file
  chgrp 65533 file
  writes file
  is 'owner, group and mode' "$(stat -c '%u %g %a' file)" '65534 65533 660'
  user=()
  chown 65533:65534 file
  printf old >file
  writes file
  is 'owner, group and mode' "$(stat -c '%u %g %a' file)" '65533 65534 660'
  holds file kept
fi

[ $wrong = 0 ] && echo "offload: $tried answers about files as expected"
exit $wrong
