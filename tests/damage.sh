#!/usr/bin/env bash
# Gives each file of a folder to the tool, and with "llvm" to LLVM's tools where they are installed, and counts how they end:
# tests/damage.sh OFFLOAD FOLDER [llvm]
# Ends with 1 where the tool crashes, hangs, or ends with a status that is not for a file; the files are then named.
set -u
offload=$1
files=("$2"/*)
bundles=$(dirname "$0")/../samples/bundles
out=$(mktemp -d)
trap 'rm -rf "$out"' EXIT
target=hip-amdgcn-amd-amdhsa--gfx906:sramecc-:xnack+
wrong=0
export LLVM_DISABLE_SYMBOLIZATION=1
ulimit -c 0
ulimit -v $((8 << 20)) # 8 GiB

# ends NAME STATUS WORD..: how a program ends on each file, which stands for the word FILE. A status that the pattern STATUS does not have is told.
# A program that takes 10 seconds of processor time hangs (SIGXCPU); one that only waits is ended by the caller's limit.
ends() {
  local name=$1 allowed=$2 file status answered=0 refused=0 crashed=0 hung=0
  shift 2
  for file in "${files[@]}"; do
    (ulimit -St 10 && exec "${@//FILE/$file}") >"$out/text" 2>&1 </dev/null
    status=$?
    case $status in
      0 | [4-7]) answered=$((answered + 1)) ;;
      152) hung=$((hung + 1)) ;;
      12[5-9] | 1[3-9]? | 2??) crashed=$((crashed + 1)) ;;
      *) refused=$((refused + 1)) ;;
    esac
    # shellcheck disable=SC2053
    [[ $status == $allowed ]] || { echo "$name: status $status: $file"; wrong=1; }
  done 2>"$out/signals"
  printf '%-42s %8d %8d %8d %8d\n' "$name" $answered $refused $crashed $hung
}

# ends_if_installed PROGRAM WORD..
ends_if_installed() {
  local program
  for program in "$1-19" "$1"; do
    command -v "$program" >"$out/text" && break
  done
  command -v "$program" >"$out/text" && ends "$program $2" '*' "$program" "${@:2}"
}

printf '%-42s %8s %8s %8s %8s\n' "${#files[@]} damaged files" answered refused crashed hung
for profile in '' ' --profile amdgpu'; do
  # shellcheck disable=SC2086
  {
    ends "offload check$profile" '[01]' "$offload" check FILE$profile
    ends "offload list$profile" '[01]' "$offload" list FILE$profile
    ends "offload pick$profile" '[014]' "$offload" pick FILE $target -o "$out/image"$profile
    ends "offload pick, two devices$profile" '[014]' "$offload" pick FILE $target hip-amdgcn-amd-amdhsa--gfx1030$profile
    ends "offload pick, as patch$profile" '[014]' "$offload" pick --patch FILE "$bundles/three-cards.bundle" $target -o "$out/image"$profile
    ends "offload pick, as main$profile" '[014]' "$offload" pick FILE --patch "$bundles/alternative.bundle" $target -o "$out/image"$profile
    ends "offload pick, as both$profile" '[014]' "$offload" pick --patch FILE FILE $target hip-amdgcn-amd-amdhsa--gfx1030$profile
    ends "offload explain$profile" '[014]' "$offload" explain FILE $target$profile
    ends "offload normalise$profile" '[01]' "$offload" normalise FILE -o "$out/normal"$profile
  }
done
ends 'offload compare, as left' '[017]' "$offload" compare FILE "$bundles/three-cards.bundle"
ends 'offload compare, as right' '[017]' "$offload" compare "$bundles/three-cards.bundle" FILE
ends 'offload compare, as both' '[01]' "$offload" compare FILE FILE
ends 'offload recover' '[056]' "$offload" recover FILE -o "$out/whole"
[ "${3-}" = llvm ] || exit $wrong
ends_if_installed clang-offload-bundler -list -type=o -input=FILE
ends_if_installed clang-offload-bundler -unbundle -type=o -targets=$target -input=FILE -output="$out/image"
ends_if_installed clang-offload-packager FILE --image=file="$out/image",arch=gfx906
exit $wrong
