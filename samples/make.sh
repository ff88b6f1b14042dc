#!/usr/bin/env bash
# Makes images/, bundles/, binaries/ and refused/ again, byte for byte, with Debian's clang-19, clang-tools-19 and lld-19 (1:19.1.7-3~deb12u1), and
# bundles/five-fields.bundle, bundles/generic-short.bundle and bundles/alternative.bundle with Debian's clang-tools-14 (1:14.0.6-12). The files are
# committed: no test runs this.
set -eu
cd "$(dirname "$0")"
rm -rf images bundles binaries refused
mkdir images bundles binaries refused

# Device images. amd NAME TARGET-ID OPTION...: a code object of the kernel for that processor.
amd() {
  clang-19 --target=amdgcn-amd-amdhsa -mcpu="$2" "${@:3}" -nogpulib -O2 -c source/add.cl -o "images/$1.o"
}
amd gfx906 gfx906
amd gfx906-sramecc+xnack+ gfx906:sramecc+:xnack+
amd gfx906-sramecc+xnack- gfx906:sramecc+:xnack-
amd gfx906-sramecc-xnack+ gfx906:sramecc-:xnack+
amd gfx906-sramecc-xnack- gfx906:sramecc-:xnack-
amd gfx90a-sramecc+xnack+ gfx90a:sramecc+:xnack+
amd gfx90a-sramecc+xnack- gfx90a:sramecc+:xnack-
amd gfx1030 gfx1030
amd gfx801-xnack+ carrizo:xnack+
amd gfx801-xnack- gfx801:xnack-
amd gfx803 fiji
# Generic processors need code objects of version 6; clang warns that these are still in development.
amd gfx9-generic-xnack+ gfx9-generic:xnack+ -mcode-object-version=6
amd gfx9-generic-xnack- gfx9-generic:xnack- -mcode-object-version=6
amd gfx10-3-generic gfx10-3-generic -mcode-object-version=6
amd gfx11-generic gfx11-generic -mcode-object-version=6
clang-19 --target=nvptx64-nvidia-cuda -march=sm_70 -nogpulib -O2 -S source/scale.c -o images/sm_70.s
clang-19 --target=nvptx64-nvidia-cuda -march=sm_80 -nogpulib -O2 -S source/scale.c -o images/sm_80.s
clang-19 --target=amdgcn-amd-amdhsa -mcpu=gfx906 -nogpulib -O2 -c -emit-llvm source/add.cl -o images/gfx906.bc
clang-19 --target=x86_64-unknown-linux-gnu -O2 -c -emit-llvm source/scale.c -o images/host.bc

# What clang's driver makes of a HIP source: driver OUTPUT OPTION... Without a CUID, which depends on the folder.
driver() {
  clang-19 -x hip --offload-device-only -nogpuinc -nogpulib -fuse-cuid=none -O2 source/add.hip -o "$@"
}
driver images/gfx906-sramecc-xnack+.co --no-gpu-bundle-output --offload-arch=gfx906:sramecc-:xnack+
driver images/gfx1030.co --no-gpu-bundle-output --offload-arch=gfx1030
chmod -x images/*.co

# Bundles.
clang-offload-bundler-19 -type=o \
  -targets=host-x86_64-unknown-linux-gnu,hip-amdgcn-amd-amdhsa--gfx906:sramecc+:xnack+,hip-amdgcn-amd-amdhsa--gfx906:sramecc+:xnack-,hip-amdgcn-amd-amdhsa--gfx906:sramecc-:xnack+,hip-amdgcn-amd-amdhsa--gfx906:sramecc-:xnack-,hip-amdgcn-amd-amdhsa--gfx90a:sramecc+:xnack+,hip-amdgcn-amd-amdhsa--gfx90a:sramecc+:xnack-,hip-amdgcn-amd-amdhsa--gfx1030 \
  -input=/dev/null \
  -input=images/gfx906-sramecc+xnack+.o \
  -input=images/gfx906-sramecc+xnack-.o \
  -input=images/gfx906-sramecc-xnack+.o \
  -input=images/gfx906-sramecc-xnack-.o \
  -input=images/gfx90a-sramecc+xnack+.o \
  -input=images/gfx90a-sramecc+xnack-.o \
  -input=images/gfx1030.o \
  -output=bundles/three-cards.bundle

clang-offload-bundler-19 -type=o -bundle-align=4096 \
  -targets=host-x86_64-unknown-linux-gnu,hipv4-amdgcn-amd-amdhsa--gfx90a:sramecc+:xnack-,hipv4-amdgcn-amd-amdhsa--gfx906:sramecc-:xnack+,hipv4-amdgcn-amd-amdhsa--gfx1030 \
  -input=/dev/null \
  -input=images/gfx90a-sramecc+xnack-.o \
  -input=images/gfx906-sramecc-xnack+.o \
  -input=images/gfx1030.o \
  -output=bundles/aligned.bundle

# The driver calls the bundler with `-type=o -bundle-align=4096`, `-input=/dev/null` for the host, and
# `-targets=host-x86_64-unknown-linux,hipv4-amdgcn-amd-amdhsa--gfx1030,hipv4-amdgcn-amd-amdhsa--gfx906:sramecc-:xnack+`.
driver bundles/driver.bundle --offload-arch=gfx906:sramecc-:xnack+ --offload-arch=gfx1030

clang-offload-bundler-19 -type=bc \
  -targets=host-x86_64-unknown-linux-gnu,openmp-amdgcn-amd-amdhsa--gfx906,hip-amdgcn-amd-amdhsa--gfx906,openmp-nvptx64-nvidia-cuda--sm_70,openmp-nvptx64-nvidia-cuda--sm_80 \
  -input=images/host.bc \
  -input=images/gfx906.bc \
  -input=images/gfx906.o \
  -input=images/sm_70.s \
  -input=images/sm_80.s \
  -output=bundles/kinds.bundle

clang-offload-bundler-19 -type=o \
  -targets=host-x86_64-unknown-linux-gnu \
  -input=/dev/null \
  -output=bundles/host-only.bundle

clang-offload-bundler-14 -type=o \
  -targets=host-x86_64-unknown-linux-gnu,hip-amdgcn-amd-amdhsa-gfx906:sramecc-:xnack+,hip-amdgcn-amd-amdhsa-gfx906:sramecc+:xnack+,openmp-amdgcn-amd-amdhsa-gfx1030 \
  -inputs=/dev/null,images/gfx906-sramecc-xnack+.o,images/gfx906-sramecc+xnack+.o,images/gfx1030.o \
  -outputs=bundles/five-fields.bundle

clang-offload-bundler-19 -type=o \
  -targets=host-x86_64-unknown-linux-gnu,hip-amdgcn-amd-amdhsa--gfx9-generic:xnack+,hip-amdgcn-amd-amdhsa--gfx9-generic:xnack-,hip-amdgcn-amd-amdhsa--gfx10-3-generic,hip-amdgcn-amd-amdhsa--gfx11-generic,hip-amdgcn-amd-amdhsa--gfx906 \
  -input=/dev/null \
  -input=images/gfx9-generic-xnack+.o \
  -input=images/gfx9-generic-xnack-.o \
  -input=images/gfx10-3-generic.o \
  -input=images/gfx11-generic.o \
  -input=images/gfx906.o \
  -output=bundles/generic.bundle

clang-offload-bundler-14 -type=o \
  -targets=host-x86_64-unknown-linux-gnu,hip-amdgcn-amd-amdhsa-gfx11-generic,hip-amdgcn-amd-amdhsa-gfx9-generic:xnack-,hip-amdgcn-amd-amdhsa-gfx9-generic:xnack+,hip-amdgcn-amd-amdhsa-gfx10-3-generic \
  -inputs=/dev/null,images/gfx11-generic.o,images/gfx9-generic-xnack-.o,images/gfx9-generic-xnack+.o,images/gfx10-3-generic.o \
  -outputs=bundles/generic-short.bundle

clang-offload-bundler-14 -type=o \
  -targets=host-x86_64-unknown-linux-gnu,hip-amdgcn-amd-amdhsa--fiji,hip-amdgcn-amd-amdhsa--carrizo:xnack+,hip-amdgcn-amd-amdhsa--gfx801:xnack- \
  -inputs=/dev/null,images/gfx803.o,images/gfx801-xnack+.o,images/gfx801-xnack-.o \
  -outputs=bundles/alternative.bundle

# A bundle that is refused: the size of the host's image, 2692 in the bytes from 40 on, is made one more, so that it takes in the first byte of the other.
clang-offload-bundler-19 -type=bc \
  -targets=host-x86_64-unknown-linux-gnu,openmp-nvptx64-nvidia-cuda--sm_70 \
  -input=images/host.bc \
  -input=images/sm_70.s \
  -output=refused/overlap.bundle
printf '\x85' | dd of=refused/overlap.bundle bs=1 seek=40 conv=notrunc status=none

# Offload binaries.
clang-offload-packager-19 -o binaries/one.bin \
  --image=file=images/gfx906.o,triple=amdgcn-amd-amdhsa,arch=gfx906

clang-offload-packager-19 -o binaries/kinds.bin \
  --image=file=images/gfx906-sramecc-xnack+.o,triple=amdgcn-amd-amdhsa,arch=gfx906:sramecc-:xnack+,kind=hip \
  --image=file=images/gfx906.bc,triple=amdgcn-amd-amdhsa,arch=gfx906,kind=openmp \
  --image=file=images/sm_70.s,triple=nvptx64-nvidia-cuda,arch=sm_70,kind=cuda \
  --image=file=images/sm_80.s,triple=nvptx64-nvidia-cuda,arch=sm_80,kind=cuda

clang-offload-packager-19 -o binaries/pairs.bin \
  --image=file=images/gfx1030.o,triple=amdgcn-amd-amdhsa,arch=gfx1030,kind=openmp,feature=-wavefrontsize64,note=arch,empty= \
  --image=file=/dev/null,triple=amdgcn-amd-amdhsa,arch=gfx1030,kind=openmp

clang-offload-packager-19 -o binaries/bitcode.bin \
  --image=file=images/gfx906.bc,triple=amdgcn-amd-amdhsa,arch=gfx906,kind=openmp

clang-offload-packager-19 -o binaries/small.bin \
  --image=file=/dev/null,triple=amdgcn-amd-amdhsa,arch=gfx906,kind=hip \
  --image=file=/dev/null,triple=nvptx64-nvidia-cuda,arch=sm_70,kind=cuda
