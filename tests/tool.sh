#!/usr/bin/env bash
# Drives the tool as a person would: tests/tool.sh OFFLOAD. Every line that differs is printed; the exit status is 1 then.
set -u
export LC_ALL=C
offload=$(realpath "$1")
top=$(realpath "$(dirname "$0")/..")
samples=$top/samples
accepted=("$samples"/bundles/*)
cards=$samples/bundles/three-cards.bundle
fields=$samples/bundles/five-fields.bundle
generic=$samples/bundles/generic.bundle
short=$samples/bundles/generic-short.bundle
alternative=$samples/bundles/alternative.bundle
driver=$samples/bundles/driver.bundle
small=$samples/binaries/small.bin # two, of 144 bytes each
four=$samples/binaries/kinds.bin  # of 2208, 4072, 1896 and 1896 bytes
processors=$top/docs/amdgpu-processors.tsv
by=(--profile amdgpu)
folder=$(mktemp -d)
trap 'rm -rf "$folder"' EXIT
mkdir "$folder/some files"
cd "$folder/some files" || exit 1
# shellcheck source=tests/answers.sh
. "$top/tests/answers.sh"
# shellcheck source=tests/bundles.sh
. "$top/tests/bundles.sh"

# Help and version.
statuses='*Exit status:*0  accepted*1  refused*2  bad usage*3  a file *4  no image for this device (NONE)*5  recovered, but something was skipped*6  no binary to recover: all was skipped'
statuses+='*7  compared, and there are differences'
all="offload [0-9]*.[0-9]*.[0-9]*: bundles of GPU images, *offload check FILE*offload pick FILE DEVICE.. [[]--patch PATCH] [[]-o OUT]  find *"
all+='*offload compare LEFT RIGHT  *offload recover FILE -o OUT  *'
all+="*FILE *LEFT, RIGHT *DEVICE *--patch PATCH *-o OUT *--profile amdgpu *--json *$statuses"
for word in help -h --help; do
  expect 0 "$all" '' $word
  expect 0 "offload list FILE [[]--profile amdgpu] [[]--json]*for each entry*$statuses" '' $word list
  expect 0 'Entry IDs*id * 1 to 256 bytes*kind * "hip"*canonical = kind-arch-vendor-system-environment-processor*hip and hipv4 are one kind*' '' $word id
  expect 0 "The profile for AMD's GPUs, --profile amdgpu: *5 ID*9 QUERY*fiji means gfx803*" '' $word profile
  expect 2 '' $'offload: no help about me\nTry: offload help' $word me
  expect 2 '' $'offload: unexpected word pick\nTry: offload help' $word check pick
  expect 2 '' $'offload: unexpected word check\nTry: offload help' $word profile check
done
lines=$("$offload" help id | wc -l)
[ "$lines" -le 17 ] || fail "help id has $lines lines"
# The grammar of IDs stands in three places, word for word: the header, RULES and help id.
grammar='/id        = /,/canonical = /'
sed -n "$grammar{s/^ \\*   //;p}" "$top/include/offload.h" >../header
sed -n "$grammar p" "$top/docs/RULES.md" >../rules
"$offload" help id | sed -n "$grammar{s/^  //;p}" >../help
same ../rules ../header
same ../help ../header
[ "$(wc -l <../header)" = 10 ] || fail 'the grammar of IDs in the header'
# The processors of the profile stand in three places too, and each is what the table has: RULES, help profile and the manual page.
# named SRAMECC XNACK: the processors with these marks, with their alternative names.
named() {
  local primary others sramecc xnack text=
  while IFS='|' read -r primary others sramecc xnack; do
    [ "$sramecc$xnack" = "$1$2" ] && text+=", $primary${others:+ (${others//,/, })}"
  done < <(grep -v '^#' "$processors" | tr '\t' '|')
  printf %s "${text#, }"
}
# words FILE: its words, with one space between two, and without roff's backslashes.
words() {
  tr -d '\134' <"$1" | tr -s '\n ' '  '
}
"$offload" help profile >../help
# has PLACE TEXT WANTED
has() {
  tried=$((tried + 1))
  [[ $2 == *"$3"* ]] || fail "$1 has not: $3"
}
has 'help profile' "$(words ../help)" "sramecc, xnack $(named 1 1) xnack $(named 0 1) none $(named 0 0)"
for marks in '1 1 sramecc, xnack' '0 1 xnack' '0 0 none'; do
  read -r sramecc xnack features <<<"$marks"
  has RULES "$(<"$top/docs/RULES.md")" $'\n'"| $features | $(named "$sramecc" "$xnack") |"$'\n'
  has 'the manual page' "$(words "$top/tool/offload.1")" " $features $(named "$sramecc" "$xnack") ."
done
is 'rows of the table' "$(grep -vc '^#' "$processors")" 50
# The manual page has every option of the help, and the words of pick, compare and recover.
for text in '.BI --patch " PATCH" ' '.BI -o " OUT" ' '.B --profile amdgpu ' '.B --json ' '.B -- ' \
  '.B offload compare .I LEFT RIGHT .RB [ --json ] ' \
  '.B offload recover .I FILE .B -o .I OUT .RB [ --json ] ' \
  '.B offload pick .I FILE DEVICE .RB [ --patch .IR PATCH ] .RB [ -o .IR OUT ] .RB [ "--profile amdgpu" ] .RB [ --json ] '; do
  has 'the manual page' "$(words "$top/tool/offload.1")" "$text"
done
# help COMMAND WORDS [PROFILE]
help() {
  local word pattern="offload $2 ${3-[[]--profile amdgpu] }[[]--json]*$statuses"
  expect 0 "$pattern" '' help "$1"
  for word in -h --help; do
    expect 0 "$pattern" '' "$1" $word
    expect 0 "$pattern" '' "$1" missing $word more
  done
}
help check 'check FILE'
help list 'list FILE'
help pick 'pick FILE DEVICE.. [[]--patch PATCH] [[]-o OUT]'
has 'help pick' "$(words ../output)" ' --patch PATCH a bundle that pick looks in before FILE'
help explain 'explain FILE DEVICE'
help normalise 'normalise FILE -o OUT'
help normalize 'normalise FILE -o OUT'
help compare 'compare LEFT RIGHT' ''
has 'help compare' "$(words ../output)" ' LEFT a bundle of at most 32768 bytes; - is standard input, for one of the two RIGHT a bundle of at most 32768 bytes; '
help recover 'recover FILE -o OUT' ''
has 'help recover' "$(words ../output)" ' FILE offload binaries, as clang-offload-packager writes them, whole or damaged; - is standard input'
for word in compare recover; do is "a profile in help $word" "$("$offload" help $word | grep -ci profile)" 0; done
for word in check list explain normalise compare recover; do is "a patch in help $word" "$("$offload" help $word | grep -ci patch)" 0; done
for word in check list pick explain normalise; do has "help $word" "$("$offload" help $word)" '  FILE              a bundle; - is standard input'; done
expect 0 'offload [0-9]*.[0-9]*.[0-9]*' '' --version
expect 2 '' $'offload: unexpected word now\nTry: offload help' --version now
holds

# Bad usage names the word.
# usage FAULT COMMAND WORD..
usage() {
  local fault=$1 command=$2
  shift 2
  expect 2 '' "offload: ${command:+$command: }$fault"$'\n'"Try: offload help${command:+ $command}" "$@"
}
usage 'missing command' ''
usage 'unknown command lits' '' lits "$cards"
usage 'unknown command HELP' '' HELP
usage 'unknown option --json' '' --json check "$cards"
usage 'missing FILE' check check
usage 'missing FILE' check check --json
usage 'unexpected word more' check check "$cards" more
usage 'unexpected word --json' check check -- "$cards" --json
usage 'unknown option --quick' check check --quick "$cards"
usage 'unknown option --jso' list list "$cards" --jso
usage 'unknown option -o' check check "$cards" -o out
usage 'unknown option -o' explain explain "$cards" gfx906 -o out
usage 'missing DEVICE' pick pick "$cards"
usage 'missing DEVICE' explain explain "$cards"
usage 'no file name after -o' pick pick "$cards" gfx906 -o
usage 'a second -o' pick pick "$cards" gfx906 -o one -o two
usage 'unexpected word more' explain explain "$cards" gfx906 more
usage 'unexpected word more' normalise normalise "$cards" more -o out
several='-o writes one image, and there are several devices: make one pick for each'
usage "$several" pick pick "$cards" gfx906 more -o out
usage "$several" pick pick -o - "$cards" gfx906 gfx906 --json
usage 'missing DEVICE' pick pick -- "$cards"
usage 'missing -o OUT' normalise normalise "$cards"
usage 'missing -o OUT' normalise normalize "$cards"
usage 'missing FILE' normalise normalise -o out
usage 'missing LEFT' compare compare
usage 'missing LEFT' compare compare --json
usage 'missing RIGHT' compare compare "$cards"
usage 'missing RIGHT' compare compare --json -- "$cards"
usage 'unexpected word more' compare compare "$cards" "$driver" more
usage 'unexpected word --json' compare compare -- "$cards" "$driver" --json
usage 'unknown option -o' compare compare "$cards" "$driver" -o out
usage 'unknown option --quiet' compare compare --quiet "$cards" "$driver"
usage 'unknown command compares' '' compares "$cards" "$driver"
usage 'LEFT and RIGHT cannot both be standard input' compare compare - -
usage 'LEFT and RIGHT cannot both be standard input' compare compare - --json -- -
for words in '--profile amdgpu' --profile=amdgpu '--profile nvptx' --profile= --profile; do
  # shellcheck disable=SC2086
  usage 'bundles are compared by the general rules alone, without the option --profile' compare compare "$cards" "$driver" $words
done
usage 'missing FILE' recover recover -o out
usage 'missing FILE' recover recover --json
usage 'missing -o OUT' recover recover "$small"
usage 'missing -o OUT' recover recover --json -- "$small"
usage 'no file name after -o' recover recover "$small" -o
usage 'a second -o' recover recover -o one "$small" -o two
usage 'unexpected word more' recover recover "$small" more -o out
usage 'unexpected word --json' recover recover -o out -- "$small" --json
usage 'unknown option --spans' recover recover --spans "$small" -o out
usage 'unknown option -o' '' -o out recover "$small"
usage 'unknown command recove' '' recove "$small" -o out
for words in '--profile amdgpu' --profile=amdgpu '--profile nvptx' --profile= --profile; do
  # shellcheck disable=SC2086
  usage 'only commands that read bundles have the option --profile' recover recover "$small" -o out $words
done
usage 'no file name after --patch' pick pick "$cards" gfx906 --patch
usage 'no file name after --patch' pick pick --patch= "$cards" gfx906
usage 'no file name after --patch' pick pick "$cards" --patch '' gfx906
usage 'a second --patch' pick pick --patch "$driver" "$cards" gfx906 --patch="$driver"
usage 'missing FILE' pick pick --patch "$driver"
usage 'missing DEVICE' pick pick --patch "$driver" "$cards"
usage "$several" pick pick --patch "$driver" "$cards" gfx906 more -o out
usage 'PATCH and FILE cannot both be standard input' pick pick --patch - - gfx906
usage 'PATCH and FILE cannot both be standard input' pick pick - --json gfx906 gfx906 --patch=-
usage 'unknown option --patches' pick pick --patches "$driver" "$cards" gfx906
usage 'unknown option --patch' '' --patch "$driver" pick "$cards" gfx906
for word in check list explain normalise compare recover; do
  usage 'only pick has the option --patch' $word $word --patch "$driver" "$cards"
  usage 'only pick has the option --patch' $word $word "$cards" --patch="$driver" gfx906 -o out
  usage 'only pick has the option --patch' $word $word "$cards" --patch
done
usage 'the only profile is amdgpu, not nvptx' check check "$cards" --profile nvptx
usage 'the only profile is amdgpu, not AMDGPU' list list --profile=AMDGPU "$cards"
usage 'the only profile is amdgpu, not --json' check check --profile --json "$cards"
usage 'no name after --profile' pick pick "$cards" gfx906 --profile
usage 'no name after --profile' explain explain "$cards" gfx906 --profile=
usage 'no name after --profile' explain explain "$cards" gfx906 --profile ''
usage 'a second --profile' normalise normalise --profile amdgpu "$cards" -o out --profile=amdgpu
usage 'unknown option --profiles' check check --profiles amdgpu "$cards"
usage 'unknown option --profile' '' --profile amdgpu check "$cards"
usage 'unexpected word --profile' check check -- "$cards" --profile amdgpu
usage 'missing FILE' check check --profile amdgpu
holds

# Accepted bundles.
expect 0 'accepted, entries 8' '' check "$cards"
expect 0 'accepted, entries 4' '' check "$samples/bundles/aligned.bundle"
expect 0 'accepted, entries 5' '' check "$samples/bundles/kinds.bundle"
expect 0 'accepted, entries 1' '' check "$samples/bundles/host-only.bundle"
expect 0 'accepted, entries 4' '' check "$fields"
expect 0 'accepted, entries 6' '' check "$generic"
expect 0 'accepted, entries 5' '' check "$short"
expect 0 'accepted, entries 4' '' check "$alternative"
bundle 0 >none
expect 0 'accepted, entries 0' '' check none
expect 0 '{"file":"none","number":0,"name":"OK","entries":0}' '' check none --json

# A line for each entry, with the ID as spelled where that differs.
heading='INDEX     OFFSET       SIZE  ID*SPELLED'
expect 0 "$heading" '' list none
expect 0 '' '' list --json none
expect 0 'INDEX     OFFSET       SIZE  ID                                             SPELLED
    0        277          0  host-x86_64-unknown-linux-gnu-                 host-x86_64-unknown-linux-gnu
    1        277       2048  hip-amdgcn-amd-amdhsa--gfx906:sramecc-:xnack+  hip-amdgcn-amd-amdhsa-gfx906:sramecc-:xnack+
    2       2325       2048  hip-amdgcn-amd-amdhsa--gfx906:sramecc+:xnack+  hip-amdgcn-amd-amdhsa-gfx906:sramecc+:xnack+
    3       4373       2248  openmp-amdgcn-amd-amdhsa--gfx1030              openmp-amdgcn-amd-amdhsa-gfx1030' '' list "$fields"
expect 0 "$heading
    0       4096          0  host-x86_64-unknown-linux-gnu-
    1       4096       3088  hipv4-amdgcn-amd-amdhsa--gfx90a:sramecc+:xnack-
    2       8192       2048  hipv4-amdgcn-amd-amdhsa--gfx906:sramecc-:xnack+
    3      12288       2248  hipv4-amdgcn-amd-amdhsa--gfx1030" '' list "$samples/bundles/aligned.bundle"
expect 0 "$heading
    0       4096          0  host-x86_64-unknown-linux--
    1       4096       3288  hipv4-amdgcn-amd-amdhsa--gfx1030
    2       8192       3048  hipv4-amdgcn-amd-amdhsa--gfx906:sramecc-:xnack+" '' list "$samples/bundles/driver.bundle"
bundle 7 host-a-b-c- host-a-b-d-- host-a-b-e-f >three
truncate -s 1073741824 three
end=$((32 + 3 * 24 + 11 + 12 + 12))
expect 0 "{\"index\":0,\"offset\":$end,\"size\":7,\"id\":\"host-a-b-c--\",\"spelled\":\"host-a-b-c-\"}
{\"index\":1,\"offset\":$end,\"size\":7,\"id\":\"host-a-b-d--\"}
{\"index\":2,\"offset\":$end,\"size\":7,\"id\":\"host-a-b-e-f-\",\"spelled\":\"host-a-b-e-f\"}" '' list three --json
ids=()
for k in {10..73}; do ids+=("host-a$k-b-c"); done
bundle 0 "${ids[@]}" >many
expect 0 "$heading*   63 *  host-a73-b-c--  host-a73-b-c" '' list many
is 'lines of list' "$("$offload" list many | wc -l)" 65
rm ./*

# Each card gets its image.
gfx=hip-amdgcn-amd-amdhsa--gfx
expect 0 'entry 0, offset 554, size 0' '' pick "$cards" host-x86_64-unknown-linux-gnu -o out
: >nothing
same out nothing
rm nothing
index=0
for card in 906:sramecc+:xnack+ 906:sramecc+:xnack- 906:sramecc-:xnack+ 906:sramecc-:xnack- 90a:sramecc+:xnack+ 90a:sramecc+:xnack- 1030; do
  index=$((index + 1))
  processor=gfx${card%%:*}
  features=${card#"${card%%:*}"}
  image=$samples/images/$processor${features:+-}${features//:/}.o
  expect 0 "entry $index, offset *, size $(stat -c %s "$image")" '' pick "$cards" "$gfx$card" -o out
  same out "$image"
done
expect 0 'entry 7, *' '' pick -o out "$cards" hip-amdgcn-amd-amdhsa-gfx1030:cumode+
same out "$samples/images/gfx1030.o"
expect 0 "{\"file\":\"$cards\",\"number\":0,\"name\":\"OK\",\"device\":\"${gfx}1030\",\"index\":7,\"offset\":14922,\"size\":2248}" '' \
  pick "$cards" "${gfx}1030" --json
holds out
rm out

# No image for a card is a status of its own, and the message points to explain.
sentence='No entry fits this device: kind (hip and hipv4 are one), triple and processor must be equal, and every feature that the entry states must be '
sentence+='stated by the device with the same sign.'
advice='offload explain FILE DEVICE says for each entry why it does not fit.'
none() {
  printf 'offload: %s: 10 NONE, device "%s": %s\n  %s' "$cards" "$1" "$sentence" "$advice"
}
left=$'\n  out is left as it was.'
printf kept >out
cp out kept
expect 4 '' "$(none "${gfx}906")" pick "$cards" "${gfx}906"
expect 4 '' "$(none "${gfx}906")" pick "$cards" "${gfx}906" -o -
expect 4 '' "$(none "${gfx}90a:sramecc-:xnack+")" pick "$cards" "${gfx}90a:sramecc-:xnack+" -o new
expect 4 '' "$(none "${gfx}906")$left" pick "$cards" "${gfx}906" -o out
object="{\"file\":\"$cards\",\"number\":10,\"name\":\"NONE\",\"device\":\"${gfx}906\",\"sentence\":\"$sentence\",\"advice\":\"$advice\""
expect 4 "$object}" '' pick --json "$cards" "${gfx}906" -o new
expect 4 "$object,\"kept\":\"out\"}" '' pick --json "$cards" "${gfx}906" -o out
: >-
expect 4 '' "$object}" pick --json "$cards" "${gfx}906" -o -
expect 4 "$object,\"kept\":\"./-\"}" '' pick --json "$cards" "${gfx}906" -o ./-
rm ./-

# Refusals: number, name, the entry or the device that is named, a sentence, and what to do. Nothing is written, and what was there stays.
# refusal FILE NUMBER-AND-NAME [WHERE [MORE]]
refusal() {
  printf 'offload: %s: %s%s: *.%s\n  *.' "$1" "$2" "${3:+, $3}" "${4:+ $4}"
}
# object FILE NUMBER NAME [KEYS [PROFILE [PATCH]]]: a refusal in JSON.
object() {
  printf '{"file":"%s",%s' "$1" "${6:+\"patch\":\"$6\",}"
  printf '%s"number":%s,"name":"%s",%s"sentence":"*.",*"advice":"*."*}' "${5:+\"profile\":\"$5\",}" "$2" "$3" "${4-}"
}
expect 1 '' "$(refusal "$cards" '9 QUERY' 'device "gfx906"')$left" pick "$cards" gfx906 -o out
expect 1 '' "$(refusal "$cards" '9 QUERY' 'device ""')" pick "$cards" '' -o new
expect 1 '' "$(refusal "$cards" '9 QUERY' 'device "-o"')" pick "$cards" -o new -- -o
expect 1 '' "$(refusal "$cards" '9 QUERY' 'device "-"')" pick "$cards" -
expect 1 '' "$(refusal "$cards" '9 QUERY' 'device "gfx906"')" explain "$cards" gfx906
expect 1 '' "$(refusal "$cards" '9 QUERY' 'device "a\\x09\\x22\\x5c\\xff ~\\x7f"')" pick "$cards" $'a\t"\\\xff ~\x7f'
expect 1 "$(object "$cards" 9 QUERY '"device":"gfx906",')" '' pick "$cards" gfx906 --json
expect 1 "$(object "$cards" 9 QUERY '"device":"gfx906",')" '' explain --json "$cards" gfx906
: >empty
expect 1 '' "$(refusal empty '2 MAGIC')$left" normalise empty -o out
expect 1 '' "$(refusal empty '2 MAGIC')" normalise empty -o new
expect 1 "$(object empty 2 MAGIC)" '' normalise empty --json -o new
same out kept
holds empty kept out
rm ./*

# Several devices: a line for each, in the order given, then how many entries are taken. Standard error has for each device without an image what a
# pick for it alone says, and the status is 1 where a device name is refused, else 4 where a device gets no image.
one=${gfx}906:sramecc+:xnack-
two=${gfx}1030
one_line="$one: entry 2, offset 2602, size 2048"
two_line="$two: entry 7, offset 14922, size 2248"
# lines TAKEN LINE..
lines() {
  printf '%s\n' "${@:2}"
  echo "entries taken: $1"
}
# query DEVICE: what is said of it, as a pattern.
query() {
  printf 'offload: %s: 9 QUERY, device "%s": The device name is not written as an entry ID must be.\n  Write it like *.' "$cards" "$1"
}
expect 0 "$(lines 2 "$one_line" "$two_line")" '' pick "$cards" "$one" "$two"
expect 0 "$(lines 2 "$two_line" "$one_line")" '' pick "$cards" -- "$two" "$one"
expect 0 "$(lines 2 "$one_line" "$two_line")" '' pick - "$one" "$two" <"$cards"
expect 4 "$(lines 1 "$one_line" "${gfx}906: 10 NONE")" "$(none "${gfx}906")" pick "$cards" "$one" "${gfx}906"
expect 4 "$(lines 0 "${gfx}90a: 10 NONE" "${gfx}906: 10 NONE")" "$(none "${gfx}90a")"$'\n'"$(none "${gfx}906")" pick "$cards" "${gfx}90a" "${gfx}906"
expect 1 "$(lines 1 "gfx1030: 9 QUERY" "$two_line")" "$(query gfx1030)" pick "$cards" gfx1030 "$two"
expect 1 "$(lines 1 "${gfx}906: 10 NONE" "$two_line" "gfx906: 9 QUERY")" "$(none "${gfx}906")"$'\n'"$(query gfx906)" pick "$cards" "${gfx}906" "$two" gfx906
expect 1 "$(lines 0 "gfx906: 9 QUERY" "${gfx}906: 10 NONE")" "$(query gfx906)"$'\n'"$(none "${gfx}906")" pick "$cards" gfx906 "${gfx}906"
# A device may stand twice, and several names get one entry, which is counted once.
expect 0 "$(lines 1 "$one_line" "$one_line")" '' pick "$cards" "$one" "$one"
expect 4 "$(lines 0 "${gfx}906: 10 NONE" "${gfx}906: 10 NONE")" "$(none "${gfx}906")"$'\n'"$(none "${gfx}906")" pick "$cards" "${gfx}906" "${gfx}906"
name=hipv4-amdgcn-amd-amdhsa-gfx1030:cumode+
expect 0 "$(lines 1 "$two_line" "$name:${two_line#"$two":}")" '' pick "$cards" "$two" "$name"
# No name runs into the next, and each is told in one line, whatever it holds.
expect 1 "$(lines 0 "${gfx}10: 10 NONE" '30: 9 QUERY')" "$(none "${gfx}10")"$'\n'"$(query 30)" pick "$cards" "${gfx}10" 30
expect 1 "$(lines 1 ': 9 QUERY' "$two_line" ': 9 QUERY')" "$(query '')"$'\n'"$(query '')" pick "$cards" '' "$two" ''
expect 1 "$(lines 0 '-: 9 QUERY' '-o: 9 QUERY')" "$(query -)"$'\n'"$(query -o)" pick "$cards" - -- -o
expect 1 "$(lines 0 'a\\x0a\\x22: 9 QUERY' '\\x5c\\xff ~\\x7f: 9 QUERY')" 'offload: *' pick "$cards" $'a\n"' $'\\\xff ~\x7f'
name=hip-$(printf 'a%.0s' {1..245})-b-c-
expect 4 "$(lines 1 "${name}x: 10 NONE" "$two_line")" '*10 NONE*' pick "$cards" "${name}x" "$two"
expect 1 "$(lines 1 "${name}xy: 9 QUERY" "$two_line")" '*9 QUERY*' pick "$cards" "${name}xy" "$two"
# 16 devices, which take all eight entries and as many of 64, and 17. A bundle is refused as for one device, before the devices are counted or read.
eight=(host-x86_64-unknown-linux-gnu "$gfx"906:sramecc{+,-}:xnack{+,-} "$gfx"90a:sramecc+:xnack{+,-} "$two")
expect 0 "${eight[0]}: entry 0, offset 554, size 0
*
$one_line
*
$two_line
${eight[0]}: entry 0, offset 554, size 0
*
$two_line
entries taken: 8" '' pick "$cards" "${eight[@]}" "${eight[@]}"
is 'lines of pick' "$(wc -l <../output)" 17
too_many=$'There are more than 16 devices.\n  At most 16 devices in one call: give the others in another.'
expect 1 '' "offload: $cards: 23 RACK: $too_many" pick "$cards" "${eight[@]}" "${eight[@]}" "$one"
expect 1 '' "offload: standard input: 23 RACK: $too_many" pick - {1..300} <"$cards"
expect 1 "$(object "$cards" 23 RACK)" '' pick "$cards" --json {1..17}
bundle 0 "${ids[@]}" >many
expect 0 "host-a58-b-c: entry 48, *
host-a73-b-c: entry 63, offset *, size 0
entries taken: 16" '' pick many "${ids[@]:48}"
head -c -1 "$cards" >short
where="entry 7 \"$two\" (offset 14922, size 2248 in a file of 17169 bytes)"
for devices in "$one $two" "$one gfx906" "$(echo {1..17})"; do
  # shellcheck disable=SC2086
  expect 1 '' "$(refusal short '6 RANGE' "$where")" pick short $devices
  # shellcheck disable=SC2086
  expect 1 "$(object short 6 RANGE "\"place\":7,\"id\":\"$two\",\"offset\":14922,\"size\":2248,")" '' pick short $devices --json
done
expect 3 '' 'offload: cannot read missing: No such file or directory' pick missing "$one" "$two"
expect 3 '' 'offload: cannot read .: Is a directory' pick . "$one" "$two"
# In JSON one object has it all: for each device what a pick for it alone has.
one_object="{\"number\":0,\"name\":\"OK\",\"device\":\"$one\",\"index\":2,\"offset\":2602,\"size\":2048}"
none_object="{\"number\":10,\"name\":\"NONE\",\"device\":\"${gfx}906\",\"sentence\":\"$sentence\",\"advice\":\"$advice\"}"
query_object='{"number":9,"name":"QUERY","device":"\\"","sentence":"The device name *","advice":"Write it like *"}'
start="{\"file\":\"$cards\",\"number\":0,\"name\":\"OK\",\"devices\":[[]"
expect 0 "$start$one_object,$one_object],\"taken\":1}" '' pick "$cards" "$one" "$one" --json
expect 4 "$start$none_object,$one_object],\"taken\":1}" '' pick --json "$cards" "${gfx}906" "$one"
expect 1 "$start$one_object,$query_object,$none_object],\"taken\":1}" '' pick "$cards" "$one" --json '"' "${gfx}906"
# The profile has the same lines, order and limits.
slip=${gfx}1O30
said="offload: $cards: 9 QUERY, device \"$slip\": The profile amdgpu does not know the processor of the device name. It is \"gfx1O30\"."$'\n  *'
expect 0 "$(lines 2 "$one_line" "$two_line")" '' pick "$cards" "$one" "${by[@]}" "$two"
expect 4 "$(lines 1 "$one_line" "$slip: 10 NONE")" "$(none "$slip")" pick "$cards" "$one" "$slip"
expect 1 "$(lines 1 "$one_line" "$slip: 9 QUERY")" "$said" pick "$cards" "$one" "$slip" "${by[@]}"
expect 4 "$(lines 1 "${gfx}906: 10 NONE" "$two_line")" 'offload: *: 10 NONE, device *--profile amdgpu says *' pick "$cards" "${gfx}906" "$two" "${by[@]}"
expect 1 "{\"file\":\"$cards\",\"profile\":\"amdgpu\",\"number\":0,\"name\":\"OK\",\"devices\":[[]$one_object,{\"number\":9,*\"processor\":\"gfx1O30\",*},$one_object],\"taken\":1}" '' \
  pick "$cards" "$one" "$slip" "$one" "${by[@]}" --json
expect 0 "*
entries taken: 8" '' pick "$cards" "${eight[@]}" "${eight[@]}" "${by[@]}"
expect 1 '' "offload: $cards: 23 RACK: $too_many" pick "$cards" "${eight[@]}" "${eight[@]}" "$slip" "${by[@]}"
bundle 0 "${gfx}907" >unknown
expect 1 '' "$(refusal unknown '5 ID' "entry 0 \"${gfx}907\"" 'It is "gfx907".')" pick unknown {1..17} "${by[@]}"
# Each line is what a pick for the device alone says, and so is the status, in both readings.
# alone FILE DEVICE OPTION..: the line for one device, made of what a pick for it says, and its status.
alone() {
  local text status=0
  text=$("$offload" pick "$1" "$2" "${@:3}" 2>&1) || status=$?
  [ $status = 0 ] || text=${text#"offload: $1: "} text=${text%%,*}
  echo "$2: $text"
  return $status
}
devices=("$one" "$two" host-x86_64-unknown-linux-gnu "${gfx}906:xnack+:sramecc-" "${gfx/--/-}9-generic:xnack-" "${gfx}11-generic" "${gfx/gfx/fiji}" "${gfx}803" \
  "${gfx/hip/openmp}906" "${gfx/hip/hipv4}1030:cumode+" "${gfx}906:xnack" gfx906 hip)
declare -A single
for sample in "${accepted[@]}"; do
  for reading in '' --profile=amdgpu; do
    wanted=
    worst=0
    for device in "${devices[@]}"; do
      # shellcheck disable=SC2086
      line=$(alone "$sample" "$device" $reading)
      status=$?
      single[$sample $device $reading]=$line
      wanted+=$line$'\n'
      [[ $status == 0 || $worst == 1 ]] || worst=$status
    done
    count=$(grep -o 'entry [0-9]*' <<<"$wanted" | sort -u | wc -l)
    # shellcheck disable=SC2086
    expect $worst "${wanted}entries taken: $count" '*' pick "$sample" "${devices[@]}" $reading
    # shellcheck disable=SC2086
    expect $worst "{\"file\":\"$sample\",*,\"devices\":[[]*],\"taken\":$count}" '' pick "$sample" "${devices[@]}" $reading --json
  done
done
holds many short unknown
rm ./*

# A patch before the main bundle: the patch answers where it has an entry for the device, the main bundle where the patch has none. hip and hipv4 are one
# kind across the two, and the option may stand anywhere.
# finds ANSWER IMAGE WORD..: the answer, without -o and with it, and what is written.
finds() {
  expect 0 "$1" '' pick "${@:3}"
  expect 0 "$1" '' pick -o out "${@:3}"
  same out "$samples/images/$2"
}
patch=(--patch "$driver")
linux=host-x86_64-unknown-linux
two_patch='patch, offset 4096, size 3288'
one_main='main, offset 2602, size 2048'
finds "$two_patch" gfx1030.co "${patch[@]}" "$cards" "$two"
finds "$two_patch" gfx1030.co "$cards" --patch="$driver" "${two/hip/hipv4}"
finds "$two_patch" gfx1030.co "$cards" "$two:cumode+" "${patch[@]}"
finds 'patch, offset 8192, size 3048' gfx906-sramecc-xnack+.co "$cards" "${patch[@]}" -- "${gfx/--/-}906:xnack+:sramecc-"
finds "$one_main" gfx906-sramecc+xnack-.o "${patch[@]}" "$cards" "$one"
finds "$one_main" gfx906-sramecc+xnack-.o --patch="$driver" "$cards" "${one/hip/hipv4}"
# The other way round; a bundle as its own patch; a patch of no entries, and a main bundle of none.
bundle 0 >none
finds 'patch, offset 14922, size 2248' gfx1030.o --patch "$cards" "$driver" "$two"
finds 'patch, offset 2602, size 2048' gfx906-sramecc+xnack-.o --patch "$cards" "$cards" "$one"
finds 'main, offset 14922, size 2248' gfx1030.o --patch none "$cards" "$two"
finds 'patch, offset 14922, size 2248' gfx1030.o --patch "$cards" none "$two"
# An empty image is an answer, of the patch too.
# finds_nothing ANSWER WORD..
finds_nothing() {
  printf old >out
  expect 0 "$1" '' pick -o out "${@:2}"
  same out empty
}
: >empty
bundle 0 "$two" >blank
finds_nothing "patch, offset $(stat -c %s blank), size 0" --patch blank "$cards" "$two"
finds_nothing "patch, offset $(stat -c %s blank), size 0" --patch blank "$cards" "${two/hip/hipv4}"
finds_nothing 'patch, offset 4096, size 0' "${patch[@]}" "$cards" $linux
finds_nothing 'main, offset 554, size 0' "${patch[@]}" "$cards" $linux-gnu
# In JSON an image has its bundle, the number and the path, in the place of an index.
# about PATCH FILE [PROFILE]: how an object about two bundles begins.
about() {
  printf '{"file":"%s","patch":"%s",%s' "$2" "$1" "${3:+\"profile\":\"$3\",}"
}
# held DEVICE BUNDLE PATH OFFSET SIZE
held() {
  printf '"number":0,"name":"OK","device":"%s","bundle":%s,"path":"%s","offset":%s,"size":%s}' "$@"
}
expect 0 "$(about "$driver" "$cards")$(held "$two" 1 "$driver" 4096 3288)" '' pick "${patch[@]}" "$cards" "$two" --json
expect 0 "$(about "$driver" "$cards")$(held "$one" 2 "$cards" 2602 2048)" '' pick --json "$cards" "$one" "${patch[@]}" -o out
expect 0 "$(about "$driver" "$cards" amdgpu)$(held "$two" 1 "$driver" 4096 3288)" '' pick "${by[@]}" "${patch[@]}" "$cards" "$two" --json
expect 0 "$(about "$cards" "$cards")$(held "$two" 1 "$cards" 14922 2248)" '' pick --patch "$cards" "$cards" "$two" --json
name=$'b\xff"'
spelled='b\\\\xff\\"'
cp none "$name"
expect 0 "$(about "$spelled" "$cards")$(held "$two" 2 "$cards" 14922 2248)" '' pick --patch "$name" "$cards" "$two" --json
expect 0 "$(about "$cards" "$spelled")$(held "$two" 1 "$cards" 14922 2248)" '' pick --patch "$cards" "$name" "$two" --json
rm "$name"
# Where neither has an image, both files are named. A device name that is refused is told as without a patch.
neither_sentence="Neither bundle has an entry that fits this device:${sentence#*device:}"
neither_advice="${advice%.}: ask it about both files."
# neither DEVICE [PATCH FILE]
neither() {
  printf 'offload: %s and %s: 10 NONE, device "%s": %s\n  %s' "${2-$driver}" "${3-$cards}" "$1" "$neither_sentence" "$neither_advice"
}
printf old >out
cp out kept
expect 4 '' "$(neither "${gfx}906")" pick "${patch[@]}" "$cards" "${gfx}906"
expect 4 '' "$(neither "${gfx}906")" pick "${patch[@]}" "$cards" "${gfx}906" -o new
expect 4 '' "$(neither "${gfx}906")$left" pick "${patch[@]}" "$cards" "${gfx}906" -o out
expect 4 '' "$(neither "$two" none none)" pick --patch none none "$two"
expect 4 '' "$(neither "$two" 'standard input' none)" pick --patch - none "$two" < <(bundle 0)
expect 4 '' "$(neither "$two" none 'standard input')" pick --patch none - "$two" < <(bundle 0)
neither_object="\"number\":10,\"name\":\"NONE\",\"device\":\"${gfx}906\",\"sentence\":\"$neither_sentence\",\"advice\":\"$neither_advice\""
expect 4 "$(about "$driver" "$cards")$neither_object}" '' pick "${patch[@]}" "$cards" "${gfx}906" --json
expect 4 "$(about "$driver" "$cards")$neither_object,\"kept\":\"out\"}" '' pick "${patch[@]}" "$cards" "${gfx}906" --json -o out
expect 4 '' "$(about "$driver" "$cards")$neither_object}" pick "${patch[@]}" "$cards" "${gfx}906" --json -o -
expect 1 '' "$(query gfx906)" pick "${patch[@]}" "$cards" gfx906 -o new
expect 1 '' "$(query '')$left" pick "${patch[@]}" "$cards" '' -o out
expect 1 '' "$(refusal 'standard input' '9 QUERY' 'device "-"')" pick "${patch[@]}" - - <"$cards"
expect 1 "$(object "$cards" 9 QUERY '"device":"gfx906",' '' "$driver")" '' pick "${patch[@]}" "$cards" gfx906 --json
same out kept
holds blank empty kept none out

# Several devices: a line for each, as many as there are, and none about entries taken.
two_line="$two: $two_patch"
one_line="$one: $one_main"
none_line="${gfx}906: 10 NONE"
# both LINE..
both() {
  printf '%s\n' "$@"
}
expect 0 "$(both "$two_line" "$one_line")" '' pick "${patch[@]}" "$cards" "$two" "$one"
expect 0 "$(both "$one_line" "$two_line" "$one_line")" '' pick "$cards" "$one" "$two" --patch="$driver" "$one"
expect 4 "$(both "$one_line" "$none_line")" "$(neither "${gfx}906")" pick "${patch[@]}" "$cards" "$one" "${gfx}906"
expect 4 "$(both "$none_line" "$none_line")" "$(neither "${gfx}906")"$'\n'"$(neither "${gfx}906")" pick "${patch[@]}" "$cards" "${gfx}906" "${gfx}906"
expect 1 "$(both 'gfx906: 9 QUERY' "$two_line" "$none_line")" "$(query gfx906)"$'\n'"$(neither "${gfx}906")" \
  pick "${patch[@]}" "$cards" gfx906 "$two" "${gfx}906"
expect 1 "$(both "$none_line" ': 9 QUERY')" "$(neither "${gfx}906")"$'\n'"$(query '')" pick "${patch[@]}" "$cards" "${gfx}906" ''
expect 1 "$(lines 1 '--patch: 9 QUERY' "$two: entry 7, offset 14922, size 2248")" "$(query --patch)" pick "$cards" -- --patch "$two"
many=()
wanted=
for k in {1..300}; do
  many+=("$two")
  wanted+=$two_line$'\n'
done
expect 0 "$wanted$one_line" '' pick "${patch[@]}" "$cards" "${many[@]}" "$one"
expect 0 "$wanted$one_line" '' pick "${patch[@]}" "$cards" "${many[@]}" "$one" "${by[@]}"
is 'lines of pick' "$(wc -l <../output)" 301
items="[[]{$(held "$two" 1 "$driver" 4096 3288),{$neither_object},{$(held "$one" 2 "$cards" 2602 2048)]}"
expect 4 "$(about "$driver" "$cards")\"number\":0,\"name\":\"OK\",\"devices\":$items" '' pick "${patch[@]}" "$cards" "$two" "${gfx}906" "$one" --json
expect 1 "$(about "$driver" "$cards")\"number\":0,\"name\":\"OK\",\"devices\":[[]{\"number\":9,*},{$(held "$two" 1 "$driver" 4096 3288)]}" '' \
  pick "${patch[@]}" "$cards" --json x "$two"
# Each line is what a pick from the patch says alone or, where that is NONE, one from the main bundle: of every two samples, in both readings.
for sample in "${accepted[@]}"; do
  for other in "${accepted[@]}"; do
    for reading in '' --profile=amdgpu; do
      wanted=
      for device in "${devices[@]}"; do
        line=${single[$sample $device $reading]}
        which='patch'
        [[ $line != *': 10 NONE' ]] || { line=${single[$other $device $reading]}; which='main'; }
        [[ $line != *': entry '* ]] || line="$device: $which, ${line#*, }"
        wanted+=$line$'\n'
      done
      # shellcheck disable=SC2086
      expect 1 "${wanted%$'\n'}" '*' pick --patch "$sample" "$other" "${devices[@]}" $reading
    done
  done
done
holds blank empty kept none out

# What refuses a bundle is told as check tells it: of the patch, then of the main bundle, then of the device name. Both are checked, whichever has an
# image.
# told FILE PATCH MAIN [OPTION]: the file, one of the two, is refused, for every device and for several, in text and in JSON.
told() {
  local text object bundle=1 device option=("${@:4}")
  [ "$1" = "$2" ] || bundle=2
  text=$("$offload" check "$1" "${option[@]}" 2>&1)
  object=$("$offload" check "$1" "${option[@]}" --json |
    sed "s|^{\"file\":\"$1\"|{\"file\":\"$3\",\"patch\":\"$2\"|; s|\"name\":\"[A-Z]*\"|&,\"bundle\":$bundle,\"path\":\"$1\"|")
  for device in "$two" "${gfx}906" gfx906; do
    expect 1 '' "$text" pick --patch "$2" "$3" "$device" "${option[@]}"
  done
  expect 1 '' "$text" pick --patch "$2" "$3" gfx906 "$two" "${option[@]}"
  expect 1 '' "$text$left" pick --patch "$2" "$3" "$two" -o out "${option[@]}"
  expect 1 "$object" '' pick --patch "$2" "$3" "$two" --json "${option[@]}"
  expect 1 "$object" '' pick --patch "$2" "$3" "$two" gfx906 --json "${option[@]}"
}
make_refused "$samples"
truncate -s 1073741825 length
damaged=(length "${refused[@]}")
for file in "${damaged[@]}"; do
  for reading in '' --profile=amdgpu; do
    told "$file" "$file" "$cards" $reading
    told "$file" "$driver" "$file" $reading
    told "$file" "$file" "$file" $reading
    text=$("$offload" check "$file" $reading 2>&1)
    for other in "${damaged[@]}"; do
      expect 1 '' "$text" pick --patch "$file" "$other" "$two" $reading
    done
  done
done
same out kept
expect 1 '' "offload: range: 6 RANGE, entry 7 \"$two\" (offset 14922, size 2248 in a file of 17169 bytes): *" pick "${patch[@]}" range "$two"
expect 1 "$(object range 6 RANGE "\"bundle\":2,\"path\":\"range\",\"place\":7,\"id\":\"$two\",\"offset\":14922,\"size\":2248," '' "$driver")" '' \
  pick "${patch[@]}" range "$two" --json
expect 1 "$(object range 3 COUNT '"bundle":1,"path":"count",' '' count)" '' pick --patch count range "$two" --json
# By the profile alone: an ID or a device name that it does not know, two names of one processor, and an image under another name.
bundle 0 "${gfx}907" >unknown
told unknown unknown "$cards" "${by[@]}"
told unknown "$driver" unknown "${by[@]}"
expect 0 'main, offset 14922, size 2248' '' pick --patch unknown "$cards" "$two"
expect 0 "$two_patch" '' pick "${patch[@]}" unknown "$two"
expect 4 '' "$(neither "$slip")" pick "${patch[@]}" "$cards" "$slip"
expect 1 '' "$said" pick "${patch[@]}" "$cards" "$slip" "${by[@]}"
expect 1 "$(object "$cards" 9 QUERY "\"device\":\"$slip\",\"processor\":\"gfx1O30\"," amdgpu "$driver")" '' \
  pick "${patch[@]}" "$cards" "$slip" "${by[@]}" --json
expect 1 "$(both "$two_line" "$slip: 9 QUERY")" "$said" pick "${patch[@]}" "$cards" "$two" "$slip" "${by[@]}"
expect 1 '' "$(refusal range '6 RANGE' 'entry 7 *')" pick "${patch[@]}" range "$slip" "${by[@]}"
expect 1 '' "$(refusal unknown '5 ID' 'entry 0 *' 'It is "gfx907".')" pick --patch unknown range "$slip" "${by[@]}"
bundle 0 "${gfx/gfx/fiji}" "${gfx}803" >names
told names names "$cards" "${by[@]}"
told names "$driver" names "${by[@]}"
expect 0 "patch, offset $(stat -c %s names), size 0" '' pick --patch names "$alternative" "${gfx}803"
bundle 0 "${gfx}803" >primary
expect 0 "main, offset $(stat -c %s primary), size 0" '' pick --patch "$alternative" primary "${gfx}803"
finds 'patch, offset 257, size 2032' gfx803.o --patch "$alternative" primary "${gfx}803" "${by[@]}"
finds 'main, offset 257, size 2032' gfx803.o --patch primary "$alternative" "${gfx/gfx/fiji}"
finds_nothing "patch, offset $(stat -c %s primary), size 0" --patch primary "$alternative" "${gfx/gfx/fiji}" "${by[@]}"
finds 'main, offset 257, size 2032' gfx803.o "${patch[@]}" "$alternative" "${gfx/gfx/polaris}11" "${by[@]}"
primary_sentence="${neither_sentence/processor must/processor (an alternative name means its primary) must}"
primary_advice="${neither_advice/DEVICE says/DEVICE --profile amdgpu says}"
expect 4 '' "offload: $driver and $alternative: 10 NONE, device \"${gfx}906\": $primary_sentence"$'\n'"  $primary_advice" \
  pick "${patch[@]}" "$alternative" "${gfx}906" "${by[@]}"
expect 4 "$(about "$driver" "$alternative" amdgpu)\"number\":10,*,\"sentence\":\"$primary_sentence\",\"advice\":\"$primary_advice\"}" '' \
  pick "${patch[@]}" "$alternative" "${gfx}906" "${by[@]}" --json
holds blank count empty id kept length magic mixed names none out overlap primary range table twice unknown

# Either file may be standard input. One that cannot be read is named, the patch first.
expect 0 "$two_patch" '' pick --patch - "$cards" "$two" -o out <"$driver"
same out "$samples/images/gfx1030.co"
expect 0 "$two_patch" '' pick --patch=- "$cards" "$two" -o out < <(cat "$driver")
same out "$samples/images/gfx1030.co"
expect 0 "$one_main" '' pick "${patch[@]}" - "$one" -o out < <(cat "$cards")
same out "$samples/images/gfx906-sramecc+xnack-.o"
expect 0 "$(both "$two_line" "$one_line")" '' pick - "$two" "$one" "${patch[@]}" <"$cards"
expect 0 "$(about - "$cards")$(held "$two" 1 - 4096 3288)" '' pick --patch - "$cards" "$two" --json <"$driver"
expect 0 "$(about "$driver" -)$(held "$one" 2 - 2602 2048)" '' pick "${patch[@]}" - "$one" --json <"$cards"
expect 1 '' "$(refusal 'standard input' '6 RANGE' 'entry 7 *')" pick --patch - "$cards" "$two" <range
expect 1 '' "$(refusal 'standard input' '6 RANGE' 'entry 7 *')" pick "${patch[@]}" - "$two" <range
expect 1 "$(object - 2 MAGIC '"bundle":2,"path":"-",' '' "$driver")" '' pick "${patch[@]}" - "$two" --json
missing='No such file or directory'
for device in "$two" gfx906; do
  expect 3 '' "offload: cannot read missing: $missing" pick --patch missing "$cards" "$device"
  expect 3 '' "offload: cannot read missing: $missing" pick "${patch[@]}" missing "$device" -o out
  expect 3 '' "offload: cannot read missing: $missing" pick --patch missing absent "$device" "$two"
  expect 3 '' "offload: cannot read missing: $missing" pick --patch range missing "$device"
  expect 3 "{\"file\":\"missing\",\"cannot\":\"read\",\"reason\":\"$missing\"}" '' pick --patch missing "$cards" "$device" --json
  expect 3 "{\"file\":\"missing\",\"cannot\":\"read\",\"reason\":\"$missing\"}" '' pick "${patch[@]}" missing "$device" "$device" --json
done
expect 3 '' "offload: cannot read --json: $missing" pick --patch --json "$cards" "$two"
expect 3 '' 'offload: cannot read .: Is a directory' pick --patch . "$cards" "$two"
expect 3 '' 'offload: cannot read .: Is a directory' pick "${patch[@]}" . "$two"
expect 3 '' 'offload: cannot read standard input: Is a directory' pick --patch - "$cards" "$two" <.
expect 3 '' "offload: cannot write missing/out: $missing" pick "${patch[@]}" "$cards" "$two" -o missing/out
expect 3 "{\"file\":\"missing/out\",\"cannot\":\"write\",\"reason\":\"$missing\"}" '' pick "${patch[@]}" "$cards" "$one" -o missing/out --json
rm ./*

head -c 31 "$cards" >-o
expect 1 '' "$(refusal -o '3 COUNT')" check -- -o
expect 1 '' "$(refusal standard\ input '3 COUNT')" check - <./-o
expect 1 "$(object - 3 COUNT)" '' check - --json <./-o
bundle 0 "${ids[@]}" host-a-b-c >over
expect 1 '' "$(refusal over '3 COUNT')" list over
head -c 200 "$cards" >short
expect 1 '' "$(refusal short '4 TABLE' 'entry 2')" check short
expect 1 "$(object short 4 TABLE '"place":2,')" '' check short --json
bundle 0 host-a-b-c '' >nameless
expect 1 '' "$(refusal nameless '4 TABLE' 'entry 1')" list nameless
head -c -1 "$cards" >short
where="entry 7 \"${gfx}1030\" (offset 14922, size 2248 in a file of 17169 bytes)"
expect 1 '' "$(refusal short '6 RANGE' "$where")" check short
expect 1 '' "$(refusal short '6 RANGE' "$where")" pick short "${gfx}906"
expect 1 '' "$(refusal short '6 RANGE' "$where")" explain short gfx906
expect 1 "$(object short 6 RANGE "\"place\":7,\"id\":\"${gfx}1030\",\"offset\":14922,\"size\":2248,")" '' list short --json
bundle 0 host-a-b-c host-a-b-c- hip-a >id
expect 1 '' "$(refusal id '5 ID' 'entry 2 "hip-a"')" check id
expect 1 "$(object id 5 ID '"place":2,"id":"hip-a",')" '' check --json id
bundle 0 host-a-b-c $'hip-\n"\\\x80' >id
expect 1 '' "$(refusal id '5 ID' 'entry 1 "hip-\\x0a\\x22\\x5c\\x80"')" check id
expect 1 "$(object id 5 ID '"place":1,"id":"hip-\\u000a\\"\\\\\\\\x80",')" '' check --json id
{ bundle 1 $'hip-\xe2\x82'; printf '\xac'; } >id
expect 1 "$(object id 5 ID '"place":0,"id":"hip-\\\\xe2\\\\x82",')" '' check --json id
bundle 0 host-a-b-c hip-a-b-c-gfx906:xnack+:sramecc- hip-a-b-c--gfx906:sramecc-:xnack- hip-a-b-c--gfx906:sramecc-:xnack+ >twice
earlier='It is entry 1 "hip-a-b-c-gfx906:xnack+:sramecc-".'
expect 1 '' "$(refusal twice '7 TWICE' 'entry 3 "hip-a-b-c--gfx906:sramecc-:xnack+"' "$earlier")" check twice
expect 1 "$(object twice 7 TWICE '"place":3,"id":"hip-*+","earlier":1,"earlier_id":"hip-a-b-c-gfx906:xnack+:sramecc-",')" '' list twice --json
bundle 0 hip-a-b-c-gfx906 hip-a-b-c-gfx90a:xnack+ openmp-a-b-c-gfx90a hip-a-b-c-gfx90a:sramecc+ >mixed
expect 1 '' "$(refusal mixed '8 MIXED' 'entry 3 "hip-a-b-c-gfx90a:sramecc+"' 'It is entry 1 "hip-a-b-c-gfx90a:xnack+".')" check mixed
for pair in ' :xnack+' ':xnack+ ' ':xnack+ :sramecc-:xnack-' ':f+ :g+:f-' ':a+:b+ :a+'; do
  bundle 0 "hip-a-b-c-gfx906${pair% *}" "hip-a-b-c-gfx906${pair#* }" >mixed
  expect 1 '' "$(refusal mixed '8 MIXED' "entry 1 \"hip-a-b-c-gfx906${pair#* }\"" "It is entry 0 \"hip-a-b-c-gfx906${pair% *}\".")" check mixed
done
truncate -s 1073741825 long
expect 1 '' "$(refusal long '1 LENGTH')" check long
cp "$cards" large
truncate -s 1073741824 large
expect 0 'accepted, entries 8' '' check large
rm ./*

# What is no bundle is named, with what to do.
# looks LIKE ADVICE BYTES: LIKE is empty where the bytes are like nothing known.
looks() {
  # shellcheck disable=SC2059
  printf "$3" >file
  expect 1 '' "offload: file: 2 MAGIC: *, so it is no binary bundle.${1:+ It looks like $1.}"$'\n'"  $2" check file
  expect 1 "$(object file 2 MAGIC)" '' check file --json
  [[ $(<../output) == *"${1:+\"looks_like\":\"$1\"}"* ]] || fail "looks_like: $(<../output)"
}
looks 'an empty file' '*written whole*' ''
looks 'a compressed bundle' '*clang-offload-bundler -unbundle*without -compress.' 'CCOB\2\0'
looks 'an archive' '*llvm-ar x FILE*' '!<arch>\n'
looks 'an ELF file' '*objcopy*.hip_fatbin*clang-offload-bundler -unbundle -type=o*' '\177ELF'
looks 'offload binaries' '*clang-offload-packager*offload recover*' '\020\377\020\255'
looks 'the beginning of a bundle' '*cut short*' '_'
looks 'the beginning of a bundle' '*cut short*' __CLANG_OFFLOAD_BUNDLE_
for sign in ';' '#' //; do
  looks 'a text bundle' '*clang-offload-bundler -unbundle*' "\\n$sign __CLANG_OFFLOAD_BUNDLE____START__ host-a-b-c\\n"
done
for bytes in CCO '!<arch>' '\177EL' '\020\377\020' __CLANG_OFFLOAD_BUNDLE. '# __CLANG_OFFLOAD_BUNDLE____START_' \
  ' __CLANG_OFFLOAD_BUNDLE____START__' '#' '\n'; do
  looks '' '*clang-offload-bundler makes it (-type=o*' "$bytes"
done
expect 1 '' "$(refusal "$samples/binaries/one.bin" '2 MAGIC' '' 'It looks like offload binaries.')" check "$samples/binaries/one.bin"
expect 1 '' "$(refusal "$samples/images/gfx906.o" '2 MAGIC' '' 'It looks like an ELF file.')" check "$samples/images/gfx906.o"
rm file

# Why each entry does not fit: the nearest first, of equals the lower index.
bundle 0 host-a-b-c hip-a-b-c-gfx1 hip-a-b-c-e-gfx1:f+:g+ hip-x-b-c-e-gfx1 hip-a-x-c-e-gfx1 hip-a-b-x-e-gfx1 hip-a-b-c-x-gfx1 hip-a-b-c-e-gfx2 hip-a-b-c-e \
  hip-a-b-c-e-gfx1:f-:g- hip-a-b-c-e-gfx1:f+:g- hip-x-x-x-e-gfx1 openmp-a-b-c-e-gfx1 >all
tail='    7  hip-a-b-c-e-gfx2        processor: entry gfx2, device gfx1
    8  hip-a-b-c-e-            processor: entry (none), device gfx1
    1  hip-a-b-c--gfx1         environment: entry (none), device e
    6  hip-a-b-c-x-gfx1        environment: entry x, device e
    5  hip-a-b-x-e-gfx1        system: entry x, device c
    4  hip-a-x-c-e-gfx1        vendor: entry x, device b
    3  hip-x-b-c-e-gfx1        arch: entry x, device a
   11  hip-x-x-x-e-gfx1        arch: entry x, device a
    0  host-a-b-c--            kind: entry host, device hip
   12  openmp-a-b-c-e-gfx1     kind: entry openmp, device hip'
expect 0 "INDEX  ID                      REASON
   10  hip-a-b-c-e-gfx1:f+:g-  fits
    2  hip-a-b-c-e-gfx1:f+:g+  feature: entry g+, device g-
    9  hip-a-b-c-e-gfx1:f-:g-  feature: entry f-, device f+
$tail" '' explain all hip-a-b-c-e-gfx1:g-:f+:h+
expect 4 "INDEX  ID                      REASON
    2  hip-a-b-c-e-gfx1:f+:g+  feature: entry f+, device (not stated)
    9  hip-a-b-c-e-gfx1:f-:g-  feature: entry f-, device (not stated)
   10  hip-a-b-c-e-gfx1:f+:g-  feature: entry f+, device (not stated)
$tail" '' explain all hip-a-b-c-e-gfx1
expect 4 "INDEX  ID *
    2  hip-a-b-c-e-gfx1:f+:g+  feature: entry g+, device (not stated)
    9  hip-a-b-c-e-gfx1:f-:g-  feature: entry g-, device (not stated)
   10  hip-a-b-c-e-gfx1:f+:g-  feature: entry g-, device (not stated)
$tail" '' explain all hip-a-b-c-e-gfx1:f-
bundle 0 host-a-b-c-e hip-a-b-c-gfx1:f+ hip-a-b-c-gfx1:f- hip-a-b-c-gfx2:f+ >some
expect 0 '{"index":2,"id":"hip-a-b-c--gfx1:f-","fits":true}
{"index":1,"id":"hip-a-b-c--gfx1:f+","fits":false,"reason":"feature sign","entry":"f+","device":"f-"}
{"index":3,"id":"hip-a-b-c--gfx2:f+","fits":false,"reason":"processor","entry":"gfx2","device":"gfx1"}
{"index":0,"id":"host-a-b-c-e-","fits":false,"reason":"kind","entry":"host","device":"hip"}' '' explain some hip-a-b-c-gfx1:f- --json
expect 4 '{"index":1,"id":"hip-a-b-c--gfx1:f+","fits":false,"reason":"feature not stated","entry":"f+"}
{"index":2,*"reason":"feature not stated","entry":"f-"}
*' '' explain some hip-a-b-c-gfx1:g- --json
expect 4 '{"index":0,"id":"host-a-b-c-e-","fits":false,"reason":"environment","entry":"e","device":""}
*' '' explain some host-a-b-c --json
bundle 0 >none
expect 4 'INDEX  ID  REASON' '' explain none host-a-b-c
expect 4 '' '' explain none host-a-b-c --json
# It says what pick says.
for sample in "${accepted[@]}"; do
  while read -r device; do
    if picked=$("$offload" pick "$sample" "$device" 2>../error); then
      index=${picked%%,*}
      expect 0 "INDEX *"$'\n'"*( )${index#entry }  hip*  fits"$'\n*' '' explain "$sample" "$device"
    else
      expect 4 'INDEX  ID * REASON!(*fits*)' '' explain "$sample" "$device"
    fi
  done <<'DEVICES'
hip-amdgcn-amd-amdhsa--gfx906
hip-amdgcn-amd-amdhsa--gfx906:xnack+:sramecc-
hipv4-amdgcn-amd-amdhsa--gfx90a:sramecc+:xnack-
hip-amdgcn-amd-amdhsa--gfx1030
hip-amdgcn-amd-amdhsa-gfx9-generic:xnack-
hip-amdgcn-amd-amdhsa--gfx11-generic
DEVICES
done
rm ./*

# Strings in JSON hold UTF-8 as it is; every other byte stands as \xNN.
bundle 0 >none
# string BYTES JSON
string() {
  expect 1 "$(object none 9 QUERY "\"device\":\"${2//\\/\\\\}\",")" '' pick --json none "$1"
}
string 'a b/~' 'a b/~'
string $'"\\' $'\\"\\\\'
string $'\x01\t\n\x1f\x7f' $'\\u0001\\u0009\\u000a\\u001f\x7f'
string $'caf\xc3\xa9 \xe2\x82\xac \xf0\x9f\x98\x80' $'caf\xc3\xa9 \xe2\x82\xac \xf0\x9f\x98\x80'
string $'\x80\xbf' '\\x80\\xbf'
string $'\xc1\xbf\xc2\x80' $'\\\\xc1\\\\xbf\xc2\x80'
string $'\xe0\x9f\xbf\xe0\xa0\x80' $'\\\\xe0\\\\x9f\\\\xbf\xe0\xa0\x80'
string $'\xed\xa0\x80\xed\x9f\xbf' $'\\\\xed\\\\xa0\\\\x80\xed\x9f\xbf'
string $'\xf0\x8f\xbf\xbf\xf0\x90\x80\x80' $'\\\\xf0\\\\x8f\\\\xbf\\\\xbf\xf0\x90\x80\x80'
string $'\xf4\x90\x80\x80\xf4\x8f\xbf\xbf' $'\\\\xf4\\\\x90\\\\x80\\\\x80\xf4\x8f\xbf\xbf'
string $'\xf5\x80\x80\x80\xff' '\\xf5\\x80\\x80\\x80\\xff'
string $'\xe2\x82' '\\xe2\\x82'
string $'\xe2\x82a\xf0\x90\x80' '\\xe2\\x82a\\xf0\\x90\\x80'
name=$'b\xff"\\\n'
mv none "$name"
expect 0 '{"file":"b\\\\xff\\"\\\\\\u000a","number":0,*}' '' check --json "$name"
rm ./*

# Normal forms: accepted, their own normal form, and with the same images.
for sample in "${accepted[@]}"; do
  expect 0 'written, length *' '' normalise "$sample" -o normal
  expect 0 'accepted, entries [1-8]' '' check normal
  expect 0 "written, length $(stat -c %s normal)" '' normalize normal -o again
  same again normal
done
expect 0 'entry *, offset *, size *' '' pick normal hip-amdgcn-amd-amdhsa-gfx906:xnack+:sramecc- -o image
same image "$samples/images/gfx906-sramecc-xnack+.o"
cp "$cards" same
expect 0 'written, length *' '' normalise same -o same
expect 0 "{\"file\":\"$cards\",\"number\":0,\"name\":\"OK\",\"length\":17170}" '' normalise "$cards" -o normal --json
same same normal
holds again image normal same
rm ./*

# An image that entries share stands once for each of them.
{ bundle 5 "${ids[@]}"; printf image; } >shared
expect 0 "written, length $((32 + 64 * (24 + 12 + 2 + 5)))" '' normalise shared -o normal
expect 0 'entry 63, offset *, size 5' '' pick normal host-a73-b-c -o image
is 'an image that was shared' "$(<image)" image
bundle $((17 << 20)) "${ids[@]}" >big
truncate -s $((18 << 20)) big
expect 0 'accepted, entries 64' '' check big
expect 1 '' "$(refusal big '11 BIG')" normalise big -o out
expect 1 "$(object big 11 BIG)" '' normalise big -o out --json
head -c -1 shared >short
expect 1 '' "$(refusal short '6 RANGE' 'entry 0 "host-a10-b-c" (offset 2336, size 5 in a file of 2340 bytes)')" normalise short -o out
holds big image normal shared short
rm ./*

# Images that overlap: the entry and the earlier one are named, with where their images lie. Whichever of the two comes first, the second is the entry.
one=hip-a-b-c--gfx1
two=hip-a-b-c--gfx2
end=$((32 + 2 * (24 + ${#one})))
digits=0123456789
sentence="An earlier entry has an image that shares bytes with this one's and is not the same span."
advice='The file is damaged or was made by a faulty program: copy it, or make it again with images that lie apart.'
printf kept >out
cp out kept
# images IMAGES ID..: a bundle whose images are digits.
images() {
  bundle "$@"
  printf %s $digits
}
# span START+SIZE: where an image lies, of two entries.
span() {
  echo "offset $((end + ${1%+*})), size ${1#*+}"
}
# overlap FIRST SECOND
overlap() {
  local text keys
  images "$1 $2" $one $two >over
  text="offload: over: 21 OVERLAP, entry 1 \"$two\" ($(span "$2") in a file of $((end + 10)) bytes): $sentence It is entry 0 \"$one\" ($(span "$1"))."
  text+=$'\n'"  $advice"
  keys="\"place\":1,\"id\":\"$two\",\"offset\":$((end + ${2%+*})),\"size\":${2#*+},"
  keys+="\"earlier\":0,\"earlier_id\":\"$one\",\"earlier_offset\":$((end + ${1%+*})),\"earlier_size\":${1#*+},"
  expect 1 '' "$text" check over
  expect 1 '' "$text" list over
  expect 1 '' "$text" explain over $one
  expect 1 '' "$text$left" pick over $one -o out
  expect 1 '' "$text$left" normalise over -o out
  expect 1 '' "$text" normalise over -o -
  expect 1 "$(object over 21 OVERLAP "$keys")" '' check over --json
  expect 1 "$(object over 21 OVERLAP "$keys")" '' normalise over -o new --json
}
# One byte in common, inside or around, one end in common.
for pair in '2+4 5+4' '2+4 3+2' '2+4 2+3' '2+4 3+3' '0+10 9+1' '0+10 0+1'; do
  overlap "${pair% *}" "${pair#* }"
  overlap "${pair#* }" "${pair% *}"
done
same out kept
cp over kept
expect 1 '' "$(refusal over '21 OVERLAP' 'entry 1 *')"$'\n  over is left as it was.' normalise over -o over
same over kept
expect 1 '' "$(refusal 'standard input' '21 OVERLAP' 'entry 1 *')" check - < <(cat over)
holds kept out over
# The same span, images that touch, and an empty one inside another or at its end are accepted.
for pair in '2+4 2+4' '2+4 6+4' '6+4 2+4' '2+4 4+0' '4+0 2+4' '2+4 2+0' '2+4 6+0' '3+0 3+0' '0+10 10+0'; do
  first=${pair% *}
  second=${pair#* }
  images "$pair" $one $two >apart
  expect 0 'accepted, entries 2' '' check apart
  expect 0 "entry 0, $(span "$first")" '' pick apart $one -o out
  is 'the first image' "$(<out)" "${digits:${first%+*}:${first#*+}}"
  expect 0 "entry 1, $(span "$second")" '' pick apart $two -o out
  is 'the second image' "$(<out)" "${digits:${second%+*}:${second#*+}}"
  expect 0 "written, length $((end + ${first#*+} + ${second#*+}))" '' normalise apart -o normal
  expect 0 'accepted, entries 2' '' check normal
done
# The lowest index whose image overlaps that of any earlier entry; the first such earlier entry is named.
images '4+2 0+1 8+1 6+1 3+2 0+9' host-a-b-{c,d,e,f,g,h} >places
expect 1 '' "$(refusal places '21 OVERLAP' 'entry 4 "host-a-b-g" (offset *, size 2 in *)' 'It is entry 0 "host-a-b-c" (*, size 2).')" check places
images '9+1 4+2 0+1 0+6' host-a-b-{c,d,e,f} >places
expect 1 '' "$(refusal places '21 OVERLAP' 'entry 3 "host-a-b-f" (offset *, size 6 in *)' 'It is entry 1 "host-a-b-d" (*, size 2).')" check places
# After ID and RANGE, before TWICE, MIXED, QUERY, NONE and BIG, whatever their places are.
images '0+4 3+4 8+1' host-a-b-c host-a-b-d host-a-b >order
expect 1 '' "$(refusal order '5 ID' 'entry 2 "host-a-b"')" check order
images '0+4 3+4 8+3' host-a-b-{c,d,e} >order
expect 1 '' "$(refusal order '6 RANGE' 'entry 2 "host-a-b-e" (*)')" check order
images '0+4 4+4 7+3' host-a-b-c host-a-b-c- host-a-b-d >order
expect 1 '' "$(refusal order '21 OVERLAP' 'entry 2 "host-a-b-d" (*)' 'It is entry 1 "host-a-b-c-" (*).')" check order
images '0+4 4+4 7+3' $one $one:xnack+ host-a-b-d >order
expect 1 '' "$(refusal order '21 OVERLAP' 'entry 2 "host-a-b-d" (*)' "It is entry 1 \"$one:xnack+\" (*).")" check order
expect 1 '' "$(refusal over '21 OVERLAP' 'entry 1 *')" pick over gfx1
expect 1 '' "$(refusal over '21 OVERLAP' 'entry 1 *')" pick over host-a-b-c
bundle "1+$((17 << 20)) $((17 << 20))" "${ids[@]}" >order
truncate -s $((18 << 20)) order
expect 1 '' "$(refusal order '21 OVERLAP' 'entry 1 *')" normalise order -o new
# A real bundle in which the first image is a byte too long.
expect 1 '' "$(refusal '*/overlap.bundle' '21 OVERLAP' 'entry 1 "openmp-nvptx64-nvidia-cuda--sm_70" (offset 2835, size 1750 in a file of 4585 bytes)' \
  'It is entry 0 "host-x86_64-unknown-linux-gnu-" (offset 143, size 2693).')" check "$samples/refused/overlap.bundle"
holds apart kept normal order out over places
rm ./*

# hip and hipv4 are one kind to check, whichever comes first.
meaning='An earlier entry has the same meaning (hip and hipv4 are one kind).'
names='An earlier entry of the same kind (hip and hipv4 are one), triple and processor states other feature names.'
for kinds in 'hip hipv4' 'hipv4 hip'; do
  one=${kinds% *}-a-b-c--gfx906
  two=${kinds#* }-a-b-c--gfx906
  bundle 0 "$one:xnack+" "$two:xnack+" >twice
  expect 1 '' "offload: twice: 7 TWICE, entry 1 \"$two:xnack+\": $meaning It is entry 0 \"$one:xnack+\"."$'\n  *.' check twice
  expect 1 "$(object twice 7 TWICE "\"place\":1,\"id\":\"$two:xnack+\",\"earlier\":0,\"earlier_id\":\"$one:xnack+\",")" '' check twice --json
  expect 1 '' "$(refusal twice '7 TWICE' "entry 1 \"$two:xnack+\"" "It is entry 0 \"$one:xnack+\".")" pick twice "$one:xnack+"
  bundle 0 "$one" "$two:xnack+" >mixed
  expect 1 '' "offload: mixed: 8 MIXED, entry 1 \"$two:xnack+\": $names It is entry 0 \"$one\"."$'\n  *.' check mixed
  bundle 0 "$one:xnack+" "$two:xnack-" openmp-a-b-c--gfx906 host-a-b-c--gfx906:sramecc+ >settings
  expect 0 'accepted, entries 4' '' check settings
  expect 0 'entry 0, *' '' pick settings "$two:xnack+"
  expect 0 'entry 1, *' '' pick settings "$one:xnack-"
done
# And to pick; list and normalise keep the kind as it is spelled.
device=a-b-c--gfx906:sramecc-:xnack+
for kind in hip hipv4; do
  { bundle 5 "$kind-a-b-c-gfx906:xnack+:sramecc-"; printf image; } >$kind
  expect 0 "$heading"$'\n'"*  $kind-$device  $kind-a-b-c-gfx906:xnack+:sramecc-" '' list $kind
  expect 0 'written, length *' '' normalise $kind -o $kind.normal
  expect 0 "$heading"$'\n'"*  $kind-$device" '' list $kind.normal
  for file in $kind $kind.normal; do
    for name in hip hipv4; do
      expect 0 'entry 0, offset *, size 5' '' pick "$file" "$name-$device" -o image
      is 'the image' "$(<image)" image
    done
    expect 4 '' 'offload: *: 10 NONE, *' pick "$file" "openmp-$device"
  done
done
is 'cmp of the normal forms' "$(cmp -s hip.normal hipv4.normal; echo $?)" 1
# Explain names no kind that is one with the other.
bundle 0 hip-a-b-c-gfx1:f+ hipv4-a-b-c-gfx1:f- hipv4-a-b-c-gfx2 openmp-a-b-c-gfx1 >all
for kind in hip hipv4; do
  tail="    2  hipv4-a-b-c--gfx2     processor: entry gfx2, device gfx1
    3  openmp-a-b-c--gfx1    kind: entry openmp, device $kind"
  expect 0 "INDEX  ID                    REASON
    0  hip-a-b-c--gfx1:f+    fits
    1  hipv4-a-b-c--gfx1:f-  feature: entry f-, device f+
$tail" '' explain all $kind-a-b-c-gfx1:f+
  expect 4 "INDEX  ID                    REASON
    0  hip-a-b-c--gfx1:f+    feature: entry f+, device (not stated)
    1  hipv4-a-b-c--gfx1:f-  feature: entry f-, device (not stated)
$tail" '' explain all $kind-a-b-c-gfx1
done
expect 0 '{"index":3,"id":"openmp-a-b-c--gfx1","fits":true}
{"index":0,"id":"hip-a-b-c--gfx1:f+","fits":false,"reason":"kind","entry":"hip","device":"openmp"}
{"index":1,"id":"hipv4-a-b-c--gfx1:f-","fits":false,"reason":"kind","entry":"hipv4","device":"openmp"}
{"index":2,*"entry":"hipv4","device":"openmp"}' '' explain all openmp-a-b-c-gfx1 --json
# Of real files, too.
expect 0 'entry 7, offset 14922, size 2248' '' pick "$cards" "${gfx/hip/hipv4}1030" -o image
same image "$samples/images/gfx1030.o"
expect 0 'entry 3, offset 12288, size 2248' '' pick "$samples/bundles/aligned.bundle" "${gfx}1030" -o image
same image "$samples/images/gfx1030.o"
for name in "${gfx}1030" "${gfx/hip/hipv4}1030"; do
  expect 0 'entry 1, offset 4096, size 3288' '' pick "$samples/bundles/driver.bundle" "$name" -o image
  same image "$samples/images/gfx1030.co"
done
expect 0 'entry 2, *' '' pick "$samples/bundles/kinds.bundle" "${gfx/hip/hipv4}906"
expect 0 'entry 1, *' '' pick "$samples/bundles/kinds.bundle" "${gfx/hip/openmp}906"
rm ./*

# Generic processors have hyphens. list shows the canonical form, and the short spelling beside it.
expect 0 "$heading
    0        393          0  host-x86_64-unknown-linux-gnu-
    1        393       2048  ${gfx}9-generic:xnack+
    2       2441       2048  ${gfx}9-generic:xnack-
    3       4489       2256  ${gfx}10-3-generic
    4       6745       2448  ${gfx}11-generic
    5       9193       2032  ${gfx}906" '' list "$generic"
expect 0 'INDEX     OFFSET       SIZE  ID                                          SPELLED
    0        335          0  host-x86_64-unknown-linux-gnu-              host-x86_64-unknown-linux-gnu
    1        335       2448  hip-amdgcn-amd-amdhsa--gfx11-generic        hip-amdgcn-amd-amdhsa-gfx11-generic
    2       2783       2048  hip-amdgcn-amd-amdhsa--gfx9-generic:xnack-  hip-amdgcn-amd-amdhsa-gfx9-generic:xnack-
    3       4831       2048  hip-amdgcn-amd-amdhsa--gfx9-generic:xnack+  hip-amdgcn-amd-amdhsa-gfx9-generic:xnack+
    4       6879       2256  hip-amdgcn-amd-amdhsa--gfx10-3-generic      hip-amdgcn-amd-amdhsa-gfx10-3-generic' '' list "$short"
expect 0 'written, length 9140' '' normalise "$short" -o normal
expect 0 "$heading
    0        340       2256  ${gfx}10-3-generic
    1       2596       2448  ${gfx}11-generic
    2       5044       2048  ${gfx}9-generic:xnack+
    3       7092       2048  ${gfx}9-generic:xnack-
    4       9140          0  host-x86_64-unknown-linux-gnu-" '' list normal
# Both spellings of a device name get the image, from both spellings of its entry.
for card in 9-generic:xnack+ 9-generic:xnack- 10-3-generic 11-generic; do
  image=$samples/images/gfx${card/:/-}.o
  for file in "$generic" "$short" normal; do
    for name in "$gfx$card" "${gfx/--/-}$card" "${gfx/hip/hipv4}$card"; do
      expect 0 "entry *, offset *, size $(stat -c %s "$image")" '' pick "$file" "$name" -o image
      same image "$image"
    done
  done
done
expect 0 'entry 5, *' '' pick "$generic" "${gfx}906:sramecc+:xnack-" -o image
same image "$samples/images/gfx906.o"
# No generic processor stands for another, and explain names them whole.
expect 0 "INDEX  ID                                          REASON
    4  hip-amdgcn-amd-amdhsa--gfx11-generic        fits
    1  hip-amdgcn-amd-amdhsa--gfx9-generic:xnack+  processor: entry gfx9-generic, device gfx11-generic
    2  hip-amdgcn-amd-amdhsa--gfx9-generic:xnack-  processor: entry gfx9-generic, device gfx11-generic
    3  hip-amdgcn-amd-amdhsa--gfx10-3-generic      processor: entry gfx10-3-generic, device gfx11-generic
    5  hip-amdgcn-amd-amdhsa--gfx906               processor: entry gfx906, device gfx11-generic
    0  host-x86_64-unknown-linux-gnu-              kind: entry host, device hip" '' explain "$generic" "${gfx/--/-}11-generic:xnack-"
expect 4 "INDEX *
    2  hip-amdgcn-amd-amdhsa--gfx9-generic:xnack-  feature: entry xnack-, device (not stated)
    3  hip-amdgcn-amd-amdhsa--gfx9-generic:xnack+  feature: entry xnack+, device (not stated)
    1  hip-amdgcn-amd-amdhsa--gfx11-generic        processor: entry gfx11-generic, device gfx9-generic
    4  hip-amdgcn-amd-amdhsa--gfx10-3-generic      processor: entry gfx10-3-generic, device gfx9-generic
    0 *" '' explain "$short" "${gfx}9-generic"
expect 4 '{"index":1,"id":"hip-amdgcn-amd-amdhsa--gfx11-generic","fits":false,"reason":"processor","entry":"gfx11-generic","device":"gfx12-generic"}
*' '' explain "$short" "${gfx}12-generic" --json
for name in "${gfx}9-generic" "${gfx}12-generic" "${gfx}9" "${gfx}11" "${gfx/--/-}10-3" "${gfx/--/-gnu-}11-generic"; do
  expect 4 '' 'offload: *: 10 NONE, *' pick "$generic" "$name"
  expect 4 '' 'offload: *: 10 NONE, *' pick "$short" "$name"
done
expect 4 '' 'offload: *: 10 NONE, *' pick "$short" "${gfx}906"
expect 4 '' 'offload: *: 10 NONE, *' pick "$cards" "${gfx}10-3-generic"
expect 1 '' "$(refusal "$cards" '9 QUERY' "device \"${gfx}1030-\"")" pick "$cards" "${gfx}1030-"
# The two spellings are one meaning; another environment or another hyphen makes two.
one=hip-a-b-c-gfx9-generic
two=hip-a-b-c--gfx9-generic
bundle 0 $one:xnack+ $two:xnack- $two:xnack+ >twice
expect 1 '' "$(refusal twice '7 TWICE' "entry 2 \"$two:xnack+\"" "It is entry 0 \"$one:xnack+\".")" check twice
bundle 0 $two $one:xnack+ >mixed
expect 1 '' "$(refusal mixed '8 MIXED' "entry 1 \"$one:xnack+\"" "It is entry 0 \"$two\".")" check mixed
bundle 0 $one:xnack+ hip-a-b-c-gnu-gfx9-generic hip-a-b-c-gfx9--generic hip-a-b-c-gfx9generic hip-a-b-c-gfx9 hip-a-b-c--generic hip-a-b-c-generic >apart
expect 0 'accepted, entries 7' '' check apart
# Where the processor starts and ends, in an entry and in a device name.
# reads ID CANONICAL PROCESSOR
reads() {
  { bundle 5 "$1" openmp-a-b-c; printf image; } >entry
  { bundle 5 "$2" openmp-a-b-c; printf image; } >canonical
  expect 0 'accepted, entries 2' '' check entry
  expect 0 "{\"index\":0,*,\"id\":\"$2\"*}"$'\n*' '' list entry --json
  expect 0 'entry 0, *' '' pick entry "$2"
  expect 0 'entry 0, *' '' pick canonical "$1"
  expect 0 "{\"index\":0,*,\"id\":\"$2\"}"$'\n*' '' list canonical --json
  expect 4 "{\"index\":0,*,\"reason\":\"processor\",\"entry\":\"$3\",\"device\":\"other\"}"$'\n*' '' explain entry "${2%"$3"*}other" --json
}
reads hip-a-b-c-gfx9-generic hip-a-b-c--gfx9-generic gfx9-generic
reads hip-a-b-c-gfx9-4-generic:xnack-:sramecc+ hip-a-b-c--gfx9-4-generic:sramecc+:xnack- gfx9-4-generic
reads hip-a-b-c-gnu-gfx9-generic:xnack- hip-a-b-c-gnu-gfx9-generic:xnack- gfx9-generic
reads hip-a-b-c-gfx9--x hip-a-b-c--gfx9--x gfx9--x
reads hip-a-b-c-gfxenv-gfx906 hip-a-b-c--gfxenv-gfx906 gfxenv-gfx906
reads hip-a-b-c-gfxenv hip-a-b-c--gfxenv gfxenv
reads hip-a-b-c-sm_90-a hip-a-b-c--sm_90-a sm_90-a
reads hip-a-b-c-sm_-x hip-a-b-c--sm_-x sm_-x
reads hip-a-b-c-gf-gfx9 hip-a-b-c-gf-gfx9 gfx9
reads hip-a-b-c-generic-gfx9-x hip-a-b-c-generic-gfx9-x gfx9-x
reads hip-a-b-c-d-e-f hip-a-b-c-d-e-f e-f
reads hip-a-b-c--1-2-3-4-5-6-7-8-9 hip-a-b-c--1-2-3-4-5-6-7-8-9 1-2-3-4-5-6-7-8-9
reads hip-a-b-c-gnu- hip-a-b-c-gnu- ''
reads hip-a-b-c-gnu hip-a-b-c-gnu- ''
reads hip-a-b-gfx9-generic hip-a-b-gfx9-generic- ''
# refuses ID
refuses() {
  bundle 0 openmp-a-b-c "$1" >entry
  expect 1 '' "$(refusal entry '5 ID' "entry 1 \"$1\"")" check entry
  expect 1 '' "$(refusal entry '5 ID' "entry 1 \"$1\"")" normalise entry -o new
  bundle 0 openmp-a-b-c >entry
  expect 1 '' "$(refusal entry '9 QUERY' "device \"$1\"")" pick entry "$1"
  expect 1 '' "$(refusal entry '9 QUERY' "device \"$1\"")" explain entry "$1"
}
refuses hip-a-b-c-gfxenv-
refuses hip-a-b-c-gfx9-generic-
refuses hip-a-b-c-gfx9-generic-:xnack-
refuses hip-a-b-c-sm_70-
refuses hip-a-b-c-gnu--
refuses hip-a-b-c-gnu--x
refuses hip-a-b-c-gnu-x-
refuses hip-a-b-c---
refuses hip-a-b-c---gfx9
refuses hip-a-b-c-gnu-:xnack+
refuses hip-a-b-c-gfx9-gen+ric
refuses hip-a-b
# The canonical form has 256 bytes at most.
long=hip-a-b-c-gfx9-$(printf 'x%.0s' {1..240})
reads "$long" "${long/-gfx/--gfx}" "${long#hip-a-b-c-}"
refuses "${long}x"
holds apart canonical entry image mixed normal twice
rm ./*

# The profile for AMD's GPUs. All samples keep it, and the option may stand anywhere.
for sample in "${accepted[@]}"; do
  expect 0 'accepted, entries [1-8]' '' check "$sample" --profile amdgpu
  expect 0 "{\"file\":\"$sample\",\"profile\":\"amdgpu\",\"number\":0,\"name\":\"OK\",\"entries\":[1-8]}" '' check --json --profile=amdgpu "$sample"
  [ "$sample" = "$alternative" ] && continue
  # Without alternative names nothing else changes.
  is "list of $sample" "$("$offload" list "$sample" "${by[@]}")" "$("$offload" list "$sample")"
  expect 0 'written, length *' '' normalise "$sample" -o normal
  expect 0 'written, length *' '' normalise "$sample" "${by[@]}" -o strict
  same strict normal
done
rm ./*
# Alternative names mean their primaries, which the canonical form has.
expect 0 'INDEX     OFFSET       SIZE  ID                                     SPELLED
    0        257          0  host-x86_64-unknown-linux-gnu-         host-x86_64-unknown-linux-gnu
    1        257       2032  hip-amdgcn-amd-amdhsa--fiji
    2       2289       2040  hip-amdgcn-amd-amdhsa--carrizo:xnack+
    3       4329       2040  hip-amdgcn-amd-amdhsa--gfx801:xnack-' '' list "$alternative"
expect 0 'INDEX     OFFSET       SIZE  ID                                    SPELLED
    0        257          0  host-x86_64-unknown-linux-gnu-        host-x86_64-unknown-linux-gnu
    1        257       2032  hip-amdgcn-amd-amdhsa--gfx803         hip-amdgcn-amd-amdhsa--fiji
    2       2289       2040  hip-amdgcn-amd-amdhsa--gfx801:xnack+  hip-amdgcn-amd-amdhsa--carrizo:xnack+
    3       4329       2040  hip-amdgcn-amd-amdhsa--gfx801:xnack-' '' list "$alternative" "${by[@]}"
expect 0 '{"index":0,*,"spelled":"host-x86_64-unknown-linux-gnu"}
{"index":1,"offset":257,"size":2032,"id":"hip-amdgcn-amd-amdhsa--gfx803","spelled":"hip-amdgcn-amd-amdhsa--fiji"}
{"index":2,*"id":"hip-amdgcn-amd-amdhsa--gfx801:xnack+","spelled":"hip-amdgcn-amd-amdhsa--carrizo:xnack+"}
{"index":3,"offset":4329,"size":2040,"id":"hip-amdgcn-amd-amdhsa--gfx801:xnack-"}' '' list --json "${by[@]}" "$alternative"
target=hip-amdgcn-amd-amdhsa-
# gets INDEX IMAGE DEVICE..: by the profile each of these names of one processor gets the image, and explain says so. Without, only the one as spelled.
gets() {
  local index=$1 image=$samples/images/$2.o device
  shift 2
  for device; do
    expect 0 "entry $index, *" '' pick "$alternative" "$device" "${by[@]}" -o out
    same out "$image"
    expect 0 "{*\"id\":\"*\",\"fits\":true}"$'\n*' '' explain "$alternative" "$device" --json "${by[@]}"
  done
}
gets 1 gfx803 $target-fiji $target-gfx803 ${target}gfx803 $target-polaris10 $target-polaris11 hipv4-amdgcn-amd-amdhsa--fiji
gets 2 gfx801-xnack+ $target-carrizo:xnack+ $target-gfx801:xnack+ ${target/hip/hipv4}gfx801:xnack+
gets 3 gfx801-xnack- $target-carrizo:xnack- $target-gfx801:xnack- ${target}gfx801:xnack-
expect 0 'entry 1, *' '' pick "$alternative" $target-fiji
expect 4 '' 'offload: *: 10 NONE, *' pick "$alternative" $target-gfx803
expect 4 '' 'offload: *: 10 NONE, *' pick "$alternative" $target-polaris10
expect 4 '' 'offload: *: 10 NONE, *' pick "$alternative" $target-carrizo:xnack-
expect 0 "{\"file\":\"$alternative\",\"profile\":\"amdgpu\",\"number\":0,\"name\":\"OK\",\"device\":\"$target-polaris11\",\"index\":1,\"offset\":257,\"size\":2032}" '' \
  pick "$alternative" $target-polaris11 --json "${by[@]}"
# No image by the profile either: the message and explain speak of the profile.
sentence='No entry fits this device: kind (hip and hipv4 are one), triple and processor (an alternative name means its primary) must be equal, and every '
sentence+='feature that the entry states must be stated by the device with the same sign.'
advice='offload explain FILE DEVICE --profile amdgpu says for each entry why it does not fit.'
expect 4 '' "offload: $alternative: 10 NONE, device \"$target-tonga\": $sentence"$'\n'"  $advice" pick "$alternative" $target-tonga "${by[@]}"
expect 4 "{\"file\":\"$alternative\",\"profile\":\"amdgpu\",\"number\":10,\"name\":\"NONE\",\"device\":\"$target-tonga\",\"sentence\":\"$sentence\",\"advice\":\"$advice\"}" '' \
  pick "$alternative" $target-tonga "${by[@]}" --json
expect 4 'INDEX  ID                                    REASON
    2  hip-amdgcn-amd-amdhsa--gfx801:xnack+  feature: entry xnack+, device (not stated)
    3  hip-amdgcn-amd-amdhsa--gfx801:xnack-  feature: entry xnack-, device (not stated)
    1  hip-amdgcn-amd-amdhsa--gfx803         processor: entry gfx803, device gfx801
    0  host-x86_64-unknown-linux-gnu-        kind: entry host, device hip' '' explain "$alternative" $target-carrizo "${by[@]}"
expect 4 "INDEX *
    2  hip-amdgcn-amd-amdhsa--carrizo:xnack+  feature: entry xnack+, device (not stated)
    1  hip-amdgcn-amd-amdhsa--fiji            processor: entry fiji, device carrizo
    3  hip-amdgcn-amd-amdhsa--gfx801:xnack-   processor: entry gfx801, device carrizo
*" '' explain "$alternative" $target-carrizo
# The normal form by the profile: accepted by both readings, and its own normal form by both.
expect 0 'written, length 6370' '' normalise "$alternative" -o normal
expect 0 'written, length 6371' '' normalise "$alternative" "${by[@]}" -o strict
expect 0 "{\"file\":\"$alternative\",\"profile\":\"amdgpu\",\"number\":0,\"name\":\"OK\",\"length\":6371}" '' normalise "$alternative" "${by[@]}" --json -o strict
expect 0 "$heading
    0        259       2040  ${gfx}801:xnack+
    1       2299       2040  ${gfx}801:xnack-
    2       4339       2032  ${gfx}803
    3       6371          0  host-x86_64-unknown-linux-gnu-" '' list strict
for reading in '' --profile=amdgpu; do
  # shellcheck disable=SC2086
  expect 0 'written, length 6371' '' normalise strict $reading -o again
  same again strict
done
expect 0 'written, length 6371' '' normalise normal "${by[@]}" -o again
same again strict
is 'cmp of the normal forms' "$(cmp -s normal strict; echo $?)" 1
for name in gfx803 fiji polaris10; do
  expect 0 'entry 2, offset 4339, size 2032' '' pick strict $target-$name "${by[@]}" -o out
  same out "$samples/images/gfx803.o"
done
holds again normal out strict
rm ./*

# takes ID CANONICAL: the profile takes the ID, in an entry and in a device name, and this is its canonical form.
takes() {
  { bundle 5 "$1"; printf image; } >entry
  expect 0 "{\"index\":0,*,\"id\":\"$2\"*}" '' list entry --json "${by[@]}"
  expect 0 'entry 0, *' '' pick entry "$2" "${by[@]}"
  { bundle 5 "$2"; printf image; } >entry
  expect 0 'entry 0, *' '' pick entry "$1" "${by[@]}"
}
# denies ID KEY PART: the profile refuses the ID, in an entry and in a device name, and names the part, which JSON has under the key.
denies() {
  local text
  case $2 in
    processor) text='The profile amdgpu does not know the processor of the *.' ;;
    feature) text='By the profile amdgpu the processor of the * does not support a feature that the * states.' ;;
  esac
  bundle 0 host-a-b-c "$1" >entry
  expect 0 'accepted, entries 2' '' check entry
  expect 1 '' "offload: entry: 5 ID, entry 1 \"$1\": $text It is \"$3\"."$'\n  *offload help profile*' check entry "${by[@]}"
  bundle 0 host-a-b-c >entry
  expect 4 '' 'offload: entry: 10 NONE, *' pick entry "$1"
  expect 1 "$(object entry 9 QUERY "\"device\":\"$1\",\"$2\":\"$3\"," amdgpu)" '' pick entry "$1" --json "${by[@]}"
}
# Every name of the table, and what its row supports.
count=0
while IFS='|' read -r primary others sramecc xnack; do
  for name in $primary ${others//,/ }; do
    count=$((count + 1))
    takes $target-"$name" $target-"$primary"
    for mark in "sramecc $sramecc" "xnack $xnack"; do
      feature=${mark% *}
      case ${mark#* } in
        1) takes $target-"$name:$feature-" $target-"$primary:$feature-" ;;
        0) denies $target-"$name:$feature+" feature "$feature" ;;
        *) fail "a mark of $primary" ;;
      esac
    done
  done
done < <(grep -v '^#' "$processors" | tr '\t' '|')
is 'names of the table' $count 68
takes ${target}gfx906:xnack+:sramecc- $target-gfx906:sramecc-:xnack+
takes ${target}gfx10-1-generic:xnack+ $target-gfx10-1-generic:xnack+
takes hip-amdgcn-amd-amdhsa-gnu-fiji hip-amdgcn-amd-amdhsa-gnu-gfx803
takes hip-amdgcn-a.B-_9-x-stoney:xnack- hip-amdgcn-a.B-_9-x-gfx810:xnack-
takes hipv4-amdgcn-amd-amdhsa--verde hipv4-amdgcn-amd-amdhsa--gfx601
takes openmp-amdgcn-amd-amdhsa--oland openmp-amdgcn-amd-amdhsa--gfx602
# Names that no row has.
for name in gfx907 gfx9 gfx GFX906 gfx906x gfx90A gfx90 gfx9-4-generic gfx9-generic-x generic Fiji FIJI fiji0 fij polaris polaris12 polaris-10 gfx.906 sm_70 x 0; do
  denies $target-$name processor $name
done
denies ${target}gfx9-4-generic processor gfx9-4-generic
denies hipv4-amdgcn-amd-amdhsa-gnu-gfx907:xnack+ processor gfx907
denies openmp-amdgcn-amd-amdhsa--gfx907:cumode-:xnack+ processor gfx907
denies hip-amdgcn-x-y-fiji-gfx803-x processor gfx803-x
# Features that a row does not support, and any other name. The first in byte order is named.
denies $target-gfx906:cumode+ feature cumode
denies ${target}gfx906:xnack+:tgsplit-:sramecc- feature tgsplit
denies $target-gfx942:sramecc+:xnack-:z- feature z
denies $target-gfx90a:xnack+:sramec+ feature sramec
denies $target-gfx90a:xnac+:sramecc+ feature xnac
denies $target-gfx90a:xnacks+ feature xnacks
denies hipv4-amdgcn-amd-amdhsa--gfx900:xnack+:sramecc+ feature sramecc
denies openmp-amdgcn-amd-amdhsa--gfx1030:xnack-:sramecc- feature sramecc
denies $target-polaris10:xnack- feature xnack
# All other IDs are read as without the profile: another kind or arch, or no processor. In the fifth field an alternative name is the environment.
for id in host-amdgcn-amd-amdhsa--gfx907:cumode+ host-amdgcn-amd-amdhsa--fiji hip-amdgcn1-amd-amdhsa--gfx907:xnack+ hip-AMDGCN-amd-amdhsa--fiji:xnack+ \
  openmp-amdgc-amd-amdhsa--fiji openmp-nvptx64-nvidia-cuda--sm_70:f+ hipv4-x86_64-a-b--fiji hip-amdgcn-amd-amdhsa-- hip-amdgcn-amd-amdhsa-fiji- \
  hip-amdgcn-amd-amdhsa-gnu- hipv4-amdgcn-amd-amdhsa-polaris10- hip-a-amdgcn-b--gfx907; do
  takes "$id" "$id"
done
takes ${target}fiji ${target}fiji-
{ bundle 5 ${target}fiji; printf image; } >entry
expect 4 '' 'offload: entry: 10 NONE, *' pick entry $target-gfx803 "${by[@]}"
expect 4 '' 'offload: entry: 10 NONE, *' pick entry $target-fiji "${by[@]}"
# What breaks the general rules is told as ever, by the profile too.
general='is not written as an entry ID must be.'
for id in hip-amdgcn gfx906 $target-gfx906:xnack $target-fiji- ${target}fiji:xnack+ $target-gfx907- $target-gfx906:xnack+:xnack-; do
  bundle 0 "$id" >entry
  expect 1 '' "offload: entry: 5 ID, entry 0 \"$id\": The ID of the entry $general"$'\n'"  Make the bundle again *: offload help id." check entry "${by[@]}"
  expect 1 '' "offload: $cards: 9 QUERY, device \"$id\": The device name $general"$'\n'"  Write it like * (offload help id)." pick "$cards" "$id" "${by[@]}"
done
# The form with the primary has 256 bytes at most, and the text has, as ever: fiji is two bytes shorter than gfx803, polaris10 three longer.
vendor=$(printf 'v%.0s' {1..240})
# sized LENGTH NAME: an ID so long with this processor.
sized() {
  echo "hip-amdgcn-${vendor:0:$1-15-${#2}}-a--$2"
}
for pair in '254 fiji' '255 verde' '256 gfx803' '256 tahiti' '256 polaris10' '256 pitcairn'; do
  # shellcheck disable=SC2086
  id=$(sized $pair)
  is 'the length' "${#id}" "${pair% *}"
  bundle 0 "$id" >entry
  expect 0 'accepted, entries 1' '' check entry "${by[@]}"
  expect 0 'entry 0, *' '' pick entry "$id" "${by[@]}"
  expect 0 'written, length *' '' normalise entry "${by[@]}" -o normal
  expect 0 'entry 0, *' '' pick normal "$id" "${by[@]}"
done
for pair in '255 fiji' '256 fiji' '256 verde' '256 tonga'; do
  # shellcheck disable=SC2086
  id=$(sized $pair)
  bundle 0 host-a-b-c "$id" >entry
  expect 0 'accepted, entries 2' '' check entry
  expect 1 '' "offload: entry: 5 ID, entry 1 \"$id\": With the primary name of its processor the ID of the entry has more than 256 bytes."$'\n  *.' \
    check entry "${by[@]}"
  bundle 0 host-a-b-c >entry
  expect 1 '' "offload: entry: 9 QUERY, device \"$id\": With the primary name of its processor the device name has more than 256 bytes."$'\n  *.' \
    pick entry "$id" "${by[@]}"
done
bundle 0 "$(sized 257 polaris10)" >entry
expect 1 '' "$(refusal entry '4 TABLE' 'entry 0')" check entry "${by[@]}"
expect 1 '' "$(refusal "$cards" '9 QUERY' 'device *')" pick "$cards" "$(sized 257 polaris10)" "${by[@]}"
# Two names of one processor are one meaning.
meaning='An earlier entry has the same meaning (hip and hipv4 are one kind, an alternative name means its primary).'
names='An earlier entry of the same kind (hip and hipv4 are one), triple and processor (an alternative name means its primary) states other feature names.'
for pair in 'fiji gfx803' 'gfx803 fiji' 'polaris10 polaris11' 'tonga iceland'; do
  one=$target-${pair% *}
  two=$target-${pair#* }
  bundle 0 host-a-b-c "$one" "${two/hip/hipv4}" >twice
  expect 0 'accepted, entries 3' '' check twice
  text="offload: twice: 7 TWICE, entry 2 \"${two/hip/hipv4}\": $meaning It is entry 1 \"$one\"."$'\n  Make the bundle again with one of the two.'
  expect 1 '' "$text" check twice "${by[@]}"
  expect 1 '' "$text" list twice "${by[@]}"
  expect 1 '' "$text" pick twice "$one" "${by[@]}"
  expect 1 '' "$text" explain twice "$one" "${by[@]}"
  expect 1 '' "$text" normalise twice "${by[@]}" -o new
  expect 1 "$(object twice 7 TWICE "\"place\":2,\"id\":\"${two/hip/hipv4}\",\"earlier\":1,\"earlier_id\":\"$one\"," amdgpu)" '' check twice --json "${by[@]}"
done
bundle 0 $target-carrizo $target-fiji $target-gfx801:xnack+ >mixed
expect 0 'accepted, entries 3' '' check mixed
text="offload: mixed: 8 MIXED, entry 2 \"$target-gfx801:xnack+\": $names It is entry 0 \"$target-carrizo\"."$'\n  *.'
expect 1 '' "$text" check mixed "${by[@]}"
expect 1 '' "$text" normalise mixed "${by[@]}" -o new
bundle 0 $target-carrizo:xnack+ $target-gfx801:xnack- openmp-amdgcn-amd-amdhsa--carrizo ${target}gnu-carrizo ${target}carrizo host-amdgcn-amd-amdhsa--carrizo >apart
expect 0 'accepted, entries 6' '' check apart "${by[@]}"
# Each number over all entries before the next, as without the profile; the lowest entry is named, and an output stays.
bundle '0 0 9' $target-fiji $target-gfx803 $target-gfx907 $target-gfx908 >order
expect 1 '' "$(refusal order '5 ID' "entry 2 \"$target-gfx907\"" 'It is "gfx907".')" check order "${by[@]}"
expect 1 '' "$(refusal order '6 RANGE' "entry 2 \"$target-gfx907\" (*)")" check order
bundle '0 0 9' $target-fiji $target-gfx803 $target-gfx908 >order
expect 1 '' "$(refusal order '6 RANGE' "entry 2 \"$target-gfx908\" (*)")" pick order $target-gfx907 "${by[@]}"
images '0+4 0+4 3+4' $target-fiji $target-gfx803 $target-gfx908 >order
expect 1 '' "$(refusal order '21 OVERLAP' "entry 2 \"$target-gfx908\" (*)" "It is entry 0 \"$target-fiji\" (*).")" check order "${by[@]}"
images '0+4 0+4' $target-fiji $target-gfx803 >order
expect 1 '' "$(refusal order '7 TWICE' 'entry 1 *')" pick order gfx907 "${by[@]}"
expect 1 '' "$(refusal '*/overlap.bundle' '21 OVERLAP' 'entry 1 *')" check "$samples/refused/overlap.bundle" "${by[@]}"
expect 1 '' "$(refusal 'standard input' '2 MAGIC')" check - "${by[@]}" </dev/null
bundle 0 $target-gfx907 >order
printf kept >out
cp out kept
expect 1 '' "$(refusal order '5 ID' 'entry 0 *' 'It is "gfx907".')$left" normalise order "${by[@]}" -o out
expect 1 '' "$(refusal "$cards" '9 QUERY' 'device *' 'It is "gfx907".')$left" pick "$cards" $target-gfx907 "${by[@]}" -o out
expect 4 '' "$(refusal "$cards" '10 NONE' 'device *')$left" pick "$cards" $target-fiji "${by[@]}" -o out
expect 1 "$(object order 5 ID "\"place\":0,\"id\":\"$target-gfx907\",\"processor\":\"gfx907\"," amdgpu)" '' list order --json "${by[@]}"
same out kept
bundle $((17 << 20)) "${ids[@]}" >big
truncate -s $((18 << 20)) big
expect 1 '' "$(refusal big '11 BIG')" normalise big "${by[@]}" -o new
{ bundle 5 "${ids[@]}"; printf image; } >shared
expect 0 "written, length $((32 + 64 * (24 + 12 + 2 + 5)))" '' normalise shared "${by[@]}" -o new
expect 0 'accepted, entries 4' '' check - "${by[@]}" < <("$offload" normalise "$alternative" "${by[@]}" -o - 2>../piped)
holds apart big entry kept mixed new normal order out shared twice
rm ./*

# Comparing two bundles: a line for each difference, and how many there are. The status is 7 where there is one.
declare -A sides=([L]=left [R]=right [D]=both)
# compared LEFT RIGHT LINE..: these lines and how many they are, byte by byte, and the same in JSON.
compared() {
  local left=$1 right=$2 status=0 list='' line letter id byte
  shift 2
  [ $# = 0 ] || status=7
  for line in "$@"; do
    read -r letter id byte <<<"$line"
    list+=",{\"side\":\"${sides[$letter]}\",\"id\":\"$id\"${byte:+,\"byte\":$byte}}"
  done
  printf '%s\n' "$@" "differences $#" >../report
  said $status '' compare "$left" "$right" >../output
  same ../output ../report
  expect $status "{\"left\":\"$left\",\"right\":\"$right\",\"number\":0,\"name\":\"OK\",\"differences\":[[]${list#,}],\"count\":$#}" '' \
    compare --json "$left" "$right"
}
{ bundle 3 $linux-gnu; printf '\1\2\3'; } >left
{ bundle 3 $linux-gnu-; printf '\1\2\4'; } >right
{ bundle 2 $linux-gnu; printf '\1\2'; } >short
bundle 0 $linux-gnu >blank
bundle 0 >none
compared left right "D $linux-gnu- 2"
compared right left "D $linux-gnu- 2"
compared left short "D $linux-gnu- 2"
compared short blank "D $linux-gnu- 0"
compared left none "L $linux-gnu-"
compared none left "R $linux-gnu-"
compared none none
compared left left
expect 7 "D $linux-gnu- 2
differences 1" '' compare -- left right
# Wherever images lie and however IDs are spelled, there is no difference; the kind counts as it is spelled.
"$offload" normalise "$fields" -o normal >../output
compared "$fields" normal
truncate -s 32768 normal
compared normal "$fields"
{ bundle '0+1 1+1' hip-a-b-c-gfx1:y-:x+ host-a-b-c; printf 12; } >left
{ bundle '4+1 2+1' host-a-b-c-- hip-a-b-c--gfx1:x+:y-; printf ..1.2; } >right
compared left right
{ bundle '4+1 2+1' host-a-b-c-- hipv4-a-b-c--gfx1:x+:y-; printf ..1.3; } >right
compared left right 'L hip-a-b-c--gfx1:x+:y-' 'R hipv4-a-b-c--gfx1:x+:y-' 'D host-a-b-c-- 0'
compared right left 'R hip-a-b-c--gfx1:x+:y-' 'L hipv4-a-b-c--gfx1:x+:y-' 'D host-a-b-c-- 0'
# By the general rules alone: two names of one processor are two, and what the profile does not know is compared.
bundle 0 "${gfx/gfx/fiji}" >left
bundle 0 "${gfx}803" "${gfx}907" >right
compared left right "L ${gfx/gfx/fiji}" "R ${gfx}803" "R ${gfx}907"
# The most entries, with the longest IDs.
lefts=()
rights=()
lines=()
filler=$(printf 'a%.0s' {1..241})
for k in {10..73}; do
  lefts+=("host-$k.l$filler-b-c--")
  rights+=("host-$k.r$filler-b-c--")
  lines+=("L ${lefts[-1]}" "R ${rights[-1]}")
done
bundle 0 "${lefts[@]}" >left
bundle 0 "${rights[@]}" >right
compared left right "${lines[@]}"
is 'the longest report' "$(wc -c <../report)" 33168
compared left left
# The report on every two samples, made of what list says of each and of their images.
# image FILE OFFSET SIZE
image() {
  tail -c +$(($2 + 1)) "$1" | head -c "$3"
}
for sample in "${accepted[@]}"; do
  "$offload" list "$sample" --json | sed 's/.*"offset":\([0-9]*\),"size":\([0-9]*\),"id":"\([^"]*\)".*/\3 \1 \2/' | sort >"${sample##*/}"
done
for sample in "${accepted[@]}"; do
  for other in "${accepted[@]}"; do
    lines=()
    while read -r id offset size other_offset other_size; do
      if [ "$offset" = none ]; then
        lines+=("R $id")
      elif [ "$other_offset" = none ]; then
        lines+=("L $id")
      else
        image "$sample" "$offset" "$size" >../one
        image "$other" "$other_offset" "$other_size" >../two
        cmp -s ../one ../two && continue
        byte=$(cmp -l ../one ../two 2>../error | awk '{print $1 - 1; exit}')
        lines+=("D $id ${byte:-$((size < other_size ? size : other_size))}")
      fi
    done < <(join -a 1 -a 2 -e none -o 0,1.2,1.3,2.2,2.3 "${sample##*/}" "${other##*/}")
    compared "$sample" "$other" "${lines[@]}"
  done
done
rm ./*

# What refuses a bundle is told as check tells it, of the left and then of the right; nothing is compared.
# told_side FILE LEFT RIGHT: the file, one of the two, is refused.
told_side() {
  local side=left
  [ "$1" = "$2" ] || side=right
  expect 1 '' "$("$offload" check "$1" 2>&1)" compare "$2" "$3"
  expect 1 "$("$offload" check "$1" --json |
    sed "s|^{\"file\":\"$1\"|{\"left\":\"$2\",\"right\":\"$3\"|; s|\"name\":\"[A-Z]*\"|&,\"side\":\"$side\",\"path\":\"$1\"|")" '' \
    compare "$2" "$3" --json
}
make_refused "$samples"
: >empty
for file in "${refused[@]}" empty; do
  told_side "$file" "$file" "$cards"
  told_side "$file" "$cards" "$file"
  for other in "${refused[@]}"; do told_side "$file" "$file" "$other"; done
done
expect 1 '' "offload: range: 6 RANGE, entry 7 \"${gfx}1030\" (offset 14922, size 2248 in a file of 17169 bytes): *" compare "$cards" range
expect 1 '{"left":"range","right":"id","number":6,"name":"RANGE","side":"left","path":"range","place":7,*}' '' compare range id --json
expect 1 '' "$(refusal "$small" '2 MAGIC' '' 'It looks like offload binaries.')" compare "$small" "$cards"
# Above 32768 bytes: the message says what to do, and that is true.
too_long='The file is longer than 32768 bytes, and only bundles up to this length are compared.'
forms='Write the normal form of both (offload normalise FILE -o OUT), and compare the two by cmp: they are the same, byte for byte, exactly if the bundles '
forms+='hold the same entries.'
cp "$cards" most
truncate -s 32768 most
cp most long
printf . >>long
compared most "$cards"
compared "$cards" most
# too_long FILE SIDE LEFT RIGHT
too_long() {
  expect 1 '' "offload: $1: 1 LENGTH: $too_long"$'\n'"  $forms" compare "$3" "$4"
  expect 1 "{\"left\":\"$3\",\"right\":\"$4\",\"number\":1,\"name\":\"LENGTH\",\"side\":\"$2\",\"path\":\"$1\",\"sentence\":\"$too_long\",\"advice\":\"$forms\"}" \
    '' compare "$3" "$4" --json
}
too_long long left long "$cards"
too_long long right "$cards" long
too_long long left long range
told_side range range long
expect 0 'written, *' '' normalise long -o one
expect 0 'written, *' '' normalise "$cards" -o two
same one two
truncate -s 1073741825 long
too_long long left long "$cards"
too_long long right most long

# Either file may be standard input. One that cannot be read is named, the left first, before anything is checked.
report=$("$offload" compare "$cards" "$driver")
expect 0 'differences 0' '' compare - "$cards" <most
expect 0 'differences 0' '' compare "$cards" - < <(cat "$cards")
expect 7 "$report" '' compare - "$driver" <"$cards"
expect 7 "{\"left\":\"-\",\"right\":\"$driver\",\"number\":0,*,\"count\":11}" '' compare - "$driver" --json <"$cards"
expect 1 '' "$(refusal 'standard input' '6 RANGE' 'entry 7 *')" compare - "$cards" <range
expect 1 '' "$(refusal 'standard input' '6 RANGE' 'entry 7 *')" compare "$cards" - <range
expect 1 "{\"left\":\"$cards\",\"right\":\"-\",\"number\":2,\"name\":\"MAGIC\",\"side\":\"right\",\"path\":\"-\",*}" '' compare "$cards" - --json
missing='No such file or directory'
for file in "$cards" range; do
  expect 3 '' "offload: cannot read missing: $missing" compare missing "$file"
  expect 3 '' "offload: cannot read missing: $missing" compare "$file" missing
  expect 3 "{\"file\":\"missing\",\"cannot\":\"read\",\"reason\":\"$missing\"}" '' compare "$file" missing --json
done
expect 3 '' "offload: cannot read missing: $missing" compare missing absent
expect 3 '' 'offload: cannot read .: Is a directory' compare . "$cards"
expect 3 '' 'offload: cannot read .: Is a directory' compare "$cards" .
expect 3 '' 'offload: cannot read standard input: Is a directory' compare "$cards" - <.
name=$'b\xff"'
cp "$cards" "$name"
expect 0 '{"left":"b\\\\xff\\"","right":"b\\\\xff\\"","number":0,"name":"OK","differences":[[]],"count":0}' '' compare "$name" "$name" --json
cp "$cards" ./--json
expect 0 'differences 0' '' compare -- --json "$name"
rm ./*

# Recovering offload binaries. What is found is written, and each span that is skipped is told; where there is one, the status is 5.
# part START LENGTH: these bytes of the four.
part() {
  tail -c +$(($1 + 1)) "$four" | head -c "$2"
}
# wound AT BYTES: the file damaged gets these bytes there; it is a copy of the four where none is there.
wound() {
  [ -e damaged ] || cp "$four" damaged
  # shellcheck disable=SC2059
  printf "$2" | dd of=damaged bs=1 seek="$1" conv=notrunc status=none
}
# recovers FILE BINARIES [START+LENGTH]..: so many binaries are found, those of the file wanted, and these spans are skipped.
recovers() {
  local file=$1 count=$2 status=$(($# > 2 ? 5 : 0)) skipped=0 text='' spans='' length span object
  length=$(stat -c %s wanted)
  for span in "${@:3}"; do
    text+="skipped, start ${span%+*}, length ${span#*+}"$'\n'
    spans+=",{\"start\":${span%+*},\"length\":${span#*+}}"
    skipped=$((skipped + ${span#*+}))
  done
  text+="written, binaries $count, length $length"
  object="\"number\":0,\"name\":\"OK\",\"binaries\":$count,\"length\":$length,\"spans\":[[]${spans#,}]}"
  is 'what is copied and what is skipped' $((length + skipped)) "$(stat -c %s "$file")"
  expect "$status" "$text" '' recover "$file" -o out
  same out wanted
  expect 0 "written, binaries $count, length $length" '' recover out -o again
  same again wanted
  printf old >out
  expect "$status" "{\"file\":\"$file\",$object" '' recover --json -o out -- "$file"
  same out wanted
  said "$status" "$text" recover -o - "$file" >out
  same out wanted
  said "$status" "{\"file\":\"-\",$object" recover - -o - --json <"$file" >out
  same out wanted
  expect "$status" "$text" '' recover - -o out < <(cat "$file")
  same out wanted
  rm out again wanted
}
# recovers_parts FILE START+LENGTH.. [-- START+LENGTH..]: of the four these are found, and these spans are skipped.
recovers_parts() {
  local file=$1 count=0
  shift
  for (( ; $# > 0; count++)); do
    [ "$1" != -- ] || { shift; break; }
    part "${1%+*}" "${1#*+}"
    shift
  done >wanted
  recovers "$file" $count "$@"
}
one=0+2208 two=2208+4072 three=6280+1896 last=8176+1896
# A file that is not damaged comes out unchanged, an empty one too.
for pair in one.bin:1 bitcode.bin:1 kinds.bin:4 pairs.bin:2 small.bin:2; do
  cp "$samples/binaries/${pair%:*}" wanted
  recovers "$samples/binaries/${pair%:*}" "${pair#*:}"
done
: >empty
: >wanted
recovers empty 0
rm empty
# One of the four is damaged: in its magic, version, size, entry size, kinds, strings or image size.
for bytes in '0 x' '4 \2' '9 \0' '10 \1' '24 \51' '32 \6' '34 \4' '48 \41' '72 \37' '64 \377\377'; do
  for k in 0 2208 6280 8176; do
    wound $((k + ${bytes% *})) "${bytes#* }"
    case $k in
      0) recovers_parts damaged $two $three $last -- $one ;;
      2208) recovers_parts damaged $one $three $last -- $two ;;
      6280) recovers_parts damaged $one $two $last -- $three ;;
      8176) recovers_parts damaged $one $two $three -- $last ;;
    esac
    rm damaged
  done
done
# Several: two spans, or one where they are neighbours.
wound 0 x; wound 6280 x
recovers_parts damaged $two $last -- $one $three
wound 2208 x
recovers_parts damaged $last -- 0+8176
rm damaged
wound 2208 x; wound 8176 x
recovers_parts damaged $one $three -- $two $last
rm damaged
# A front or an end that is missing, and bytes that are no binary before, between and behind.
part 1 10071 >damaged
recovers_parts damaged $two $three $last -- 0+2207
part 2207 7865 >damaged
recovers_parts damaged $two $three $last -- 0+1
head -c -1 "$four" >damaged
recovers_parts damaged $one $two $three -- 8176+1895
head -c 8177 "$four" >damaged
recovers_parts damaged $one $two $three -- 8176+1
{ printf rubbish; cat "$four"; } >damaged
recovers_parts damaged $one $two $three $last -- 0+7
{ cat "$four"; printf '\n'; } >damaged
recovers_parts damaged $one $two $three $last -- 10072+1
{ part 0 2208; printf '\020\377\020\255'; part 2208 7864; } >damaged
recovers_parts damaged $one $two $three $last -- 2208+4
# Images are not looked into. Where bytes of one are missing, or its binary has a size that is too high, it takes in a part of the next, or all of it.
{ part 0 3000; head -c 500 /dev/zero; part 3500 6572; } >damaged
cp damaged wanted
recovers damaged 4
{ part 0 6000; part 6280 3792; } >damaged
{ head -c 6280 damaged; part 8176 1896; } >wanted
recovers damaged 3 6280+1616
rm damaged
wound 2216 '\120\027'
cp damaged wanted
recovers damaged 3
# In no order, and one twice.
{ part 8176 1896; printf .; part 0 2208; part 0 2208; printf ..; part 2208 4071; } >damaged
recovers_parts damaged $last $one $one -- 1896+1 6313+4073
# binary SIZE: the first 72 bytes of a binary so long, whose image is the rest.
binary() {
  printf '\x10\xff\x10\xad\1\0\0\0'
  word "$1"
  word 32
  word 40
  word 0
  word 0
  word 0
  word 72
  word $(($1 - 72))
}
# Binaries inside the image of a damaged one are found; inside that of a whole one they are not.
{ binary 360; cat "$small"; } >nested
cp nested wanted
recovers nested 1
{ printf x; tail -c +2 nested; } >damaged
cp "$small" wanted
recovers damaged 2 0+72
# Of a program that holds them, too: as LLVM's new driver puts them into a section of an object.
{ cat "$samples/images/gfx906.o" "$small"; printf end; } >damaged
cp "$small" wanted
recovers damaged 2 0+2032 2320+3
rm damaged nested

# 64 binaries, with bytes between them or not; the 65th is refused, and named by its first byte, whatever lies before it.
for k in {1..64}; do binary 72; done >most
cp most wanted
recovers most 64
spans=(0+1)
for k in {1..64}; do
  printf '.'
  binary 72
  spans+=($((73 * k))+1)
done >spread
printf . >>spread
cp most wanted
recovers spread 64 "${spans[@]}"
too_many='There are more than 64 binaries in the file. The 65th begins at this byte.'
# shellcheck disable=SC2016 # for the person who reads it
cut='Cut the file in two there, and recover each part: head -c BYTE FILE, and tail -c +$((BYTE + 1)) FILE.'
printf kept >out
cp out kept
# many BYTE: the file damaged has its 65th binary there.
many() {
  local said=": 18 MANY, byte $1: $too_many"$'\n'"  $cut"
  local object="\"number\":18,\"name\":\"MANY\",\"place\":$1,\"sentence\":\"$too_many\",\"advice\":\"$cut\""
  expect 1 '' "offload: damaged$said$left" recover damaged -o out
  expect 1 '' "offload: damaged$said" recover damaged -o new
  expect 1 '' "offload: standard input$said" recover - -o - <damaged
  expect 1 "{\"file\":\"damaged\",$object,\"kept\":\"out\"}" '' recover damaged --json -o out
  expect 1 "{\"file\":\"damaged\",$object}" '' recover damaged --json -o new
  same out kept
  holds damaged kept most out spread
}
{ cat most; binary 72; } >damaged
many 4608
{ cat most; binary 72; binary 72; printf rubbish; } >damaged
many 4608
{ cat most; printf rubbish; cat "$four"; } >damaged
many 4615
cat spread most >damaged
many 4673
{ printf x; tail -c +2 most; cat "$small"; } >damaged
many 4752
# The message says how to cut: the two parts give all.
head -c 4752 damaged >first
tail -c +$((4752 + 1)) damaged >second
expect 5 'skipped, start 0, length 72
written, binaries 64, length 4680' '' recover first -o out
expect 0 'written, binaries 1, length 144' '' recover second -o out
# A 65th that is damaged is none.
{ cat most; printf x; binary 72 | tail -c +2; } >damaged
cp most wanted
recovers damaged 64 4608+72
rm ./*

# Too long.
truncate -s 1073741825 long
too_long='The file is longer than 1073741824 bytes.'
parts='Cut it into parts that are not, and recover each: a binary through which a cut goes is skipped.'
expect 1 '' "offload: long: 1 LENGTH: $too_long"$'\n'"  $parts" recover long -o out
expect 1 "{\"file\":\"long\",\"number\":1,\"name\":\"LENGTH\",\"sentence\":\"$too_long\",\"advice\":\"$parts\"}" '' recover long --json -o out
holds long
rm long

# Where no binary is found, the file may be the wrong one: nothing is written, and the message says what it looks like.
printf kept >out
cp out kept
# nothing LIKE ADVICE FILE: LIKE is empty where the file is like nothing known.
nothing() {
  local said="No whole offload binary stands in the file." object length skipped
  length=$(stat -c %s "$3")
  skipped="skipped, start 0, length $length"
  object="\"number\":0,\"name\":\"OK\",\"binaries\":0,\"length\":0,\"spans\":[[]{\"start\":0,\"length\":$length}],"
  object+="\"sentence\":\"$said\",${1:+\"looks_like\":\"$1\",}\"advice\":\"$2\""
  said+="${1:+ It looks like $1.}"$'\n'"  $2"
  expect 6 "$skipped" "offload: $3: $said" recover "$3" -o new
  expect 6 "$skipped" "offload: $3: $said$left" recover "$3" -o out
  expect 6 '' "$skipped"$'\n'"offload: standard input: $said" recover - -o - <"$3"
  expect 6 "{\"file\":\"$3\",$object}" '' recover "$3" --json -o new
  expect 6 "{\"file\":\"$3\",$object,\"kept\":\"out\"}" '' recover "$3" --json -o out
  same out kept
}
give='Give offload binaries, as clang-offload-packager writes them. If it is such a file, too much of it is damaged: copy it or make it again.'
for sample in "${accepted[@]}" "$samples/refused/overlap.bundle"; do
  nothing 'a bundle' 'This command reads offload binaries: check, list, pick, explain, normalise and compare read bundles.' "$sample"
done
holds kept out
nothing 'an ELF file' "$give" "$samples/images/gfx906.o"
nothing '' "$give" "$samples/images/gfx906.bc"
head -c 2175 "$samples/binaries/one.bin" >file
nothing 'offload binaries' "$give" file
tail -c +2 "$samples/binaries/one.bin" >file
nothing '' "$give" file
for start in 'CCOB:a compressed bundle' '!<arch>\n:an archive' '# __CLANG_OFFLOAD_BUNDLE____START__:a text bundle' '__CLANG_OFFLOAD_BUNDLE_:the beginning of a bundle' \
  'rubbish:' '\0:' '\020\377\020\255:offload binaries'; do
  # shellcheck disable=SC2059
  printf "${start%:*}" >file
  nothing "${start##*:}" "$give" file
done
holds file kept out
# The output may be the file: it then holds what was found, or what it held.
cp "$four" damaged
expect 0 'written, binaries 4, length 10072' '' recover damaged -o damaged
same damaged "$four"
wound 2208 x
expect 5 'skipped, start 2208, length 4072
written, binaries 3, length 6000' '' recover damaged -o damaged
expect 0 'written, binaries 3, length 6000' '' recover damaged -o damaged
is 'the length' "$(stat -c %s damaged)" 6000
cp "$cards" damaged
expect 6 'skipped, start 0, length 17170' $'offload: damaged: No *It looks like a bundle.\n  *\n  damaged is left as it was.' recover damaged -o damaged
same damaged "$cards"
# Files that cannot be read or written.
missing='No such file or directory'
expect 3 '' "offload: cannot read missing: $missing" recover missing -o new
expect 3 "{\"file\":\"missing\",\"cannot\":\"read\",\"reason\":\"$missing\"}" '' recover missing --json -o new
expect 3 '' 'offload: cannot read .: Is a directory' recover . -o new
expect 3 '' 'offload: cannot read standard input: Is a directory' recover - -o new <.
expect 3 '' "offload: cannot write missing/out: $missing" recover "$four" -o missing/out
expect 3 "{\"file\":\"missing/out\",\"cannot\":\"write\",\"reason\":\"$missing\"}" '' recover "$four" -o missing/out --json
expect 3 '' 'offload: cannot write .: Is a directory' recover "$four" -o .
expect 3 '' "offload: cannot write : $missing" recover "$four" -o ''
holds damaged file kept out
rm ./*

# Standard input and standard output.
expect 0 'accepted, entries 8' '' check - <"$cards"
expect 0 'accepted, entries 8' '' check -- - < <(cat "$cards")
expect 0 '{"file":"-","number":0,"name":"OK","entries":8}' '' check - --json <"$cards"
expect 0 'entry 7, *' '' pick - "${gfx}1030" -o out <"$cards"
same out "$samples/images/gfx1030.o"
# written ERROR FILE WORD..: standard output gets what FILE holds, standard error the answer.
written() {
  local error=$1 file=$2
  shift 2
  timeout 60 "$offload" "$@" >../output 2>../error || fail "offload $*: status $?"
  same ../output "$file"
  # shellcheck disable=SC2053
  [[ $(<../error) == $error ]] || fail "offload $*: error: $(<../error)"
}
written 'entry 7, offset 14922, size 2248' out pick "$cards" "${gfx}1030" -o -
written '{"file":"-",*"size":2248}' out pick - "${gfx}1030" --json -o - <"$cards"
written 'main, offset 14922, size 2248' out pick --patch "$alternative" "$cards" "${gfx}1030" -o -
written 'main, offset 14922, size 2248' out pick --patch "$alternative" - "${gfx}1030" -o - <"$cards"
written 'patch, offset 14922, size 2248' out pick --patch - "$alternative" "${gfx}1030" -o - < <(cat "$cards")
written '{"file":"*","patch":"-",*"bundle":1,"path":"-",*"size":2248}' out pick --patch - "$alternative" "${gfx}1030" --json -o - <"$cards"
expect 0 'written, *' '' normalise "$cards" -o normal
written 'written, length 17170' normal normalise "$cards" -o -
written '{"file":"-",*"length":17170}' normal normalise -o - - --json < <(cat "$cards")
holds normal out
rm ./*

# Files that cannot be read or written: a reason, and no file is left.
mkdir closed
expect 3 '' 'offload: cannot read missing: No such file or directory' check missing
expect 3 '{"file":"missing","cannot":"read","reason":"No such file or directory"}' '' list --json missing
expect 3 '' 'offload: cannot read closed: Is a directory' pick closed "${gfx}1030"
expect 3 '' 'offload: cannot read standard input: Is a directory' check - <closed
expect 3 '' 'offload: cannot write missing/out: No such file or directory' pick "$cards" "${gfx}1030" -o missing/out
expect 3 '{"file":"missing/out","cannot":"write","reason":"No such file or directory"}' '' normalise "$cards" -o missing/out --json
(
  ulimit -f 1
  expect 3 '' 'offload: cannot write out: File too large' pick "$cards" "${gfx}1030" -o out
  exit $wrong
) || wrong=1
holds closed
# full WORD..: standard output takes nothing.
full() {
  "$offload" "$@" >/dev/full 2>../error
  is "offload $*" "$? $(<../error)" '3 offload: cannot write standard output: No space left on device'
}
full check "$cards"
full list "$cards" --json
full explain "$cards" "${gfx}1030"
full pick "$cards" "${gfx}1030" -o -
full pick "$cards" "${gfx}1030" "${gfx}1030"
full pick --patch "$driver" "$cards" "${gfx}1030" -o -
full pick --patch "$driver" "$cards" "${gfx}1030" "${gfx}1030"
full compare "$cards" "$cards"
full compare "$cards" "$driver"
full compare "$cards" "$driver" --json
full recover "$four" -o -
full help

[ $wrong = 0 ] && echo "offload: $tried answers as expected"
exit $wrong
