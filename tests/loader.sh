#!/usr/bin/env bash
# Runs the smallest loader: tests/loader.sh LOADER
set -eu
samples=$(dirname "$0")/../samples/bundles
overlap=$(dirname "$0")/../samples/refused/overlap.bundle
damaged=$(mktemp)
trap 'rm -f "$damaged"' EXIT
head -c -1 "$samples/three-cards.bundle" >"$damaged"
gfx=hip-amdgcn-amd-amdhsa--gfx
long=$gfx$(printf '0%.0s' {1..230}) # 256 bytes
answer() { "$@" 2>&1 || echo "status $?"; }

diff <(
  # One card.
  answer "$1" "$samples/three-cards.bundle" "${gfx}906:sramecc+:xnack-"
  answer "$1" "$samples/three-cards.bundle" host-x86_64-unknown-linux-gnu
  answer "$1" "$samples/three-cards.bundle" "${gfx}906"
  answer "$1" "$samples/driver.bundle" "${gfx}1030"
  answer "$1" "$samples/driver.bundle" hipv4-amdgcn-amd-amdhsa--gfx906:sramecc-:xnack+
  answer "$1" "$samples/driver.bundle" openmp-amdgcn-amd-amdhsa--gfx1030
  answer "$1" "$samples/generic.bundle" hip-amdgcn-amd-amdhsa-gfx9-generic:xnack-
  answer "$1" "$samples/generic-short.bundle" "${gfx}11-generic"
  answer "$1" "$samples/generic.bundle" "${gfx}9-generic"
  answer "$1" "$samples/generic.bundle" hip-amdgcn-amd-amdhsa-gfx9-
  answer "$1" "$damaged" "${gfx}906:sramecc+:xnack-"
  answer "$1" "$damaged" "${gfx}906"
  answer "$1" "$overlap" openmp-nvptx64-nvidia-cuda--sm_70
  answer "$1" "$samples/three-cards.bundle" gfx906
  answer "$1" "$samples/three-cards.bundle" "$long"
  answer "$1" "$samples/three-cards.bundle" "${long}0"
  answer "$1" "$samples/three-cards.bundle" ''
  answer "$1" /dev/null "${gfx}906"
  answer "$1" missing "${gfx}906"
  # Several.
  answer "$1" "$samples/three-cards.bundle" "${gfx}1030" "${gfx}906:sramecc+:xnack-" "${gfx}1030"
  answer "$1" "$samples/three-cards.bundle" "${gfx}906" "${gfx}1030"
  answer "$1" "$samples/three-cards.bundle" "${gfx}1030" gfx906 "${gfx}906"
  answer "$1" "$samples/three-cards.bundle" "${long}000" "${gfx}906" "${gfx}1030"
  answer "$1" "$damaged" "${gfx}1030" gfx906
  answer "$1" "$samples/three-cards.bundle" {1..16} | tail -n 2
  # None, and too many.
  answer "$1"
  answer "$1" "$samples/three-cards.bundle"
  answer "$1" "$samples/three-cards.bundle" {1..17}
) - <<TEXT
${gfx}906:sramecc+:xnack-: 2048 bytes, the first is 127
host-x86_64-unknown-linux-gnu: 0 bytes, the first is 0
${gfx}906: no image for this card
status 4
${gfx}1030: 3288 bytes, the first is 127
hipv4-amdgcn-amd-amdhsa--gfx906:sramecc-:xnack+: 3048 bytes, the first is 127
openmp-amdgcn-amd-amdhsa--gfx1030: no image for this card
status 4
hip-amdgcn-amd-amdhsa-gfx9-generic:xnack-: 2048 bytes, the first is 127
${gfx}11-generic: 2448 bytes, the first is 127
${gfx}9-generic: no image for this card
status 4
hip-amdgcn-amd-amdhsa-gfx9-: refused: 9 QUERY
status 1
refused: 6 RANGE
status 1
refused: 6 RANGE
status 1
refused: 21 OVERLAP
status 1
gfx906: refused: 9 QUERY
status 1
$long: no image for this card
status 4
${long}0: refused: 9 QUERY
status 1
: refused: 9 QUERY
status 1
refused: 2 MAGIC
status 1
loader: cannot read missing
status 3
${gfx}1030: 2248 bytes, the first is 127
${gfx}906:sramecc+:xnack-: 2048 bytes, the first is 127
${gfx}1030: 2248 bytes, the first is 127
${gfx}906: no image for this card
${gfx}1030: 2248 bytes, the first is 127
status 4
${gfx}1030: 2248 bytes, the first is 127
gfx906: refused: 9 QUERY
${gfx}906: no image for this card
status 1
${long}000: refused: 9 QUERY
${gfx}906: no image for this card
${gfx}1030: 2248 bytes, the first is 127
status 1
refused: 6 RANGE
status 1
16: refused: 9 QUERY
status 1
loader FILE DEVICE [DEVICE ..]: a bundle, and the device names of at most 16 cards
status 2
loader FILE DEVICE [DEVICE ..]: a bundle, and the device names of at most 16 cards
status 2
loader FILE DEVICE [DEVICE ..]: a bundle, and the device names of at most 16 cards
status 2
TEXT
echo 'loader: 28 answers as expected'
