#!/usr/bin/env bash
# Shows what the tool does with a real bundle, and with damaged offload binaries: examples/demo.sh OFFLOAD
set -eu
offload=$(realpath "$1")
cd "$(dirname "$0")/.."
bundle=samples/bundles/three-cards.bundle
patch=samples/bundles/driver.bundle
supplied=samples/bundles/aligned.bundle
binaries=samples/binaries/kinds.bin
work=$(mktemp -d)
trap 'rm -rf "$work"' EXIT

# Prints a command, and what the tool answers.
show() {
  echo "\$ offload $*"
  "$offload" "$@"
}

echo "$bundle was made by clang-offload-bundler. What is in it?"
echo
show list "$bundle"

echo
echo 'Which image does a card get? A line for each device name: the answer, or what the exit status says.'
echo
while read -r device; do
  status=0
  answer=$("$offload" pick "$bundle" "$device" 2>"$work/message") || status=$?
  case $status in
    0) ;;
    4) answer='no image for this card' ;;
    1) answer='refused: this is not a device name' ;;
    *) cat "$work/message" >&2; exit "$status" ;;
  esac
  printf '%-46s %s\n' "$device" "$answer"
done <<'DEVICES'
hip-amdgcn-amd-amdhsa--gfx906:sramecc+:xnack-
hip-amdgcn-amd-amdhsa--gfx906:sramecc-:xnack-
hip-amdgcn-amd-amdhsa-gfx906:xnack+:sramecc-
hip-amdgcn-amd-amdhsa--gfx906
hip-amdgcn-amd-amdhsa--gfx90a:sramecc+:xnack-
hip-amdgcn-amd-amdhsa--gfx90a:sramecc-:xnack-
hip-amdgcn-amd-amdhsa--gfx1030
hipv4-amdgcn-amd-amdhsa--gfx1030
hip-amdgcn-amd-amdhsa--gfx1030:cumode+
openmp-amdgcn-amd-amdhsa--gfx1030
gfx1030
DEVICES

echo
echo 'All cards of a station in one call, here three. The exit status says whether each has an image.'
echo
show pick "$bundle" hip-amdgcn-amd-amdhsa--gfx906:sramecc+:xnack- hip-amdgcn-amd-amdhsa--gfx1030 hip-amdgcn-amd-amdhsa--gfx1030:cumode+

echo
echo "Field service sends a small patch beside the factory's bundle. It answers where it has an image for the card; where not, the main bundle does."
echo
show pick --patch "$patch" "$bundle" hip-amdgcn-amd-amdhsa--gfx1030 hip-amdgcn-amd-amdhsa--gfx906:sramecc+:xnack-

echo
echo 'Why does a gfx906 that states neither sramecc nor xnack get none? The nearest entries come first.'
echo
show explain "$bundle" hip-amdgcn-amd-amdhsa--gfx906 || [ $? = 4 ]

echo
echo "A slip in a device name looks like a card without an image. The profile for AMD's GPUs tells the two apart:"
echo
show pick "$bundle" hip-amdgcn-amd-amdhsa--gfx1O30 --profile amdgpu 2>&1 || [ $? = 1 ]
echo
echo 'It knows the alternative names of processors, too: an image for fiji is one for gfx803.'
echo
show pick samples/bundles/alternative.bundle hip-amdgcn-amd-amdhsa--gfx803 --profile amdgpu

echo
echo 'A file that was cut short is refused, and the message names the entry:'
echo
head -c 17000 "$bundle" >"$work/short.bundle"
(cd "$work" && show check short.bundle 2>&1) || [ $? = 1 ]

echo
echo 'For programs, the same in JSON:'
echo
show pick "$bundle" hip-amdgcn-amd-amdhsa--gfx1030 --json

"$offload" normalise "$bundle" -o "$work/normal" >"$work/answer"
"$offload" normalise "$work/normal" -o - 2>>"$work/answer" | cmp - "$work/normal"
echo
echo "The normal form (entries sorted, images packed, so that equal contents are equal files):"
echo "$("$offload" check "$work/normal"), and it is its own normal form."

echo
echo "Two suppliers' bundles: an entry that only the left or the right one has is L or R, one with images that differ first at byte n is D."
echo 'The exit status is 7 then, and 0 where there is no difference.'
echo
show compare "$supplied" "$patch" || [ $? = 7 ]

echo
echo "$binaries was made by clang-offload-packager: four offload binaries, end to end. A bad disk breaks the second."
echo 'What is whole is saved, and what is skipped is told. The exit status is 5 then, and 0 where nothing is skipped.'
echo
cp "$binaries" "$work/damaged.bin"
printf '\0' | dd of="$work/damaged.bin" bs=1 seek=2208 conv=notrunc status=none
(cd "$work" && show recover damaged.bin -o sound.bin) || [ $? = 5 ]
(cd "$work" && show recover sound.bin -o again.bin)

cat <<TEXT

Next:
  $1 pick $bundle hip-amdgcn-amd-amdhsa--gfx1030 -o gfx1030.o
  $1 normalise $bundle -o normal.bundle
  $1 help
  make install PREFIX=\$HOME/.local
  make test
TEXT
