# How the tests make bundles; read by them.
# shellcheck shell=bash
# shellcheck disable=SC2034

# The number as 8 bytes.
word() {
  # shellcheck disable=SC2059
  printf "$(printf '\\x%02x\\x%02x\\x%02x\\x%02x' $(($1 & 255)) $(($1 >> 8 & 255)) $(($1 >> 16 & 255)) $(($1 >> 24 & 255)))\0\0\0\0"
}

# bundle IMAGES ID..: the table of a bundle. IMAGES has a word for each entry: SIZE, of an image at the table's end, or START+SIZE, of one that starts
# so many bytes after it. Entries beyond the last word share its image.
bundle() {
  local id image size images i=0 end=32
  read -ra images <<<"$1"
  shift
  for id in "$@"; do end=$((end + 24 + ${#id})); done
  printf '__CLANG_OFFLOAD_BUNDLE__'
  word $#
  for id in "$@"; do
    image=${images[i]-$image}
    size=${image#*+}
    word $((end + ${image%"$size"}0))
    word "$size"
    word ${#id}
    printf %s "$id"
    i=$((i + 1))
  done
}

# make_refused SAMPLES: a file in this folder for each number that refuses a bundle, but LENGTH, by the name that follows.
declare -A refused=([2]=magic [3]=count [4]=table [5]=id [6]=range [21]=overlap [7]=twice [8]=mixed)
make_refused() {
  local cards=$1/bundles/three-cards.bundle
  head -c 23 "$cards" >magic
  head -c 31 "$cards" >count
  head -c 200 "$cards" >table
  bundle 0 host-a-b-c hip-a >id
  head -c -1 "$cards" >range
  cp "$1/refused/overlap.bundle" overlap
  bundle 0 hip-a-b-c hipv4-a-b-c >twice
  bundle 0 hip-a-b-c-gfx1 hip-a-b-c-gfx1:x+ >mixed
}
