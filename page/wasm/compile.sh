#!/usr/bin/env bash
# compile.sh IN.bc OUT.wasm: compiles for wasm64 the module that was made of a proved program for x86-64, with program.c as its system, and links it.
# Its `main` becomes the export `page_main`.
set -euo pipefail
in=$1 out=$2
here=$(cd "$(dirname "${BASH_SOURCE[0]}")" && pwd)
kit=$(dirname "$(rt doc)")
tools=$kit/toolchain/bin
work=$(mktemp -d)
trap 'rm -r "$work"' EXIT

target=wasm64-unknown-unknown
layout=e-m:e-p:64:64-p10:8:8-p20:8:8-i64:64-i128:128-n32:64-S128-ni:1:10:20
cpu='"target-cpu"="lime1" "target-features"="+simd128"'

# The module as text. Pointers have 64 bits in both, so each type keeps its layout.
"$tools/clang" --target=x86_64-unknown-linux-gnu -x ir -S -emit-llvm -Xclang -disable-llvm-passes "$in" -o "$work/module.ll"

# The target and the processor, and the two words of x86-64 that a module may have: a shuffle of bytes, and a fence about a float, which says nothing
# since no sum is rearranged.
sed -i \
  -e "s/^target datalayout = .*/target datalayout = \"$layout\"/" \
  -e "s/^target triple = .*/target triple = \"$target\"/" \
  -e 's/"probe-stack"="inline-asm" "stack-probe-size"="3072" //' \
  -e 's/"target-cpu"="x86-64[-v2]*"/"no-builtin-bcmp" "no-builtin-memcmp" "no-builtin-strlen" '"$cpu/" \
  -e 's/^declare <16 x i8> @llvm.x86.ssse3.pshuf.b.128.*//' \
  -e 's/^declare double @llvm.arithmetic.fence.f64.*//' \
  -e 's/@llvm.x86.ssse3.pshuf.b.128/@page_shuffle/' \
  -e 's/@llvm.arithmetic.fence.f64/@page_fence/' \
  -e 's/^define i32 @main()/define i32 @page_main()/' \
  -e '/^define /s/\(@page_main(.*\) {$/\1 "wasm-export-name"="page_main" {/' \
  "$work/module.ll"
cat >> "$work/module.ll" <<I
define internal double @page_fence(double %x) { ret double %x }
define internal <16 x i8> @page_shuffle(<16 x i8> %x, <16 x i8> %i) alwaysinline $cpu {
  %m = and <16 x i8> %i, splat (i8 -113)
  %r = call <16 x i8> @llvm.wasm.swizzle(<16 x i8> %x, <16 x i8> %m)
  ret <16 x i8> %r
}
I
grep -q 'declare <16 x i8> @llvm.wasm.swizzle' "$work/module.ll" \
  || echo 'declare <16 x i8> @llvm.wasm.swizzle(<16 x i8>, <16 x i8>)' >> "$work/module.ll"
if grep -n 'llvm\.x86' "$work/module.ll"; then
  echo "compile.sh: the module has further words of x86-64" >&2
  exit 1
fi

flags=(--target=$target -mcpu=lime1 -msimd128 --no-default-config -ffunction-sections -fdata-sections -O3)
"$tools/clang" "${flags[@]}" -mllvm -expand-div-rem-bits=64 -mllvm -expand-fp-convert-bits=64 -mllvm -trap-unreachable -Werror \
  -c -x ir "$work/module.ll" -o "$work/module.o"
"$tools/clang" "${flags[@]}" -ffreestanding -nostdinc -fno-builtin -fwrapv -Wall -Werror -c -x c "$here/program.c" -o "$work/program.o"
"$tools/llvm-ar" --format=gnu rcD "$work/all.a" "$work/module.o" "$work/program.o"
"$kit/bin/rattle-link" --target $target --toolchain "$kit/toolchain" -o "$work/out.wasm" "$work/all.a"
mv "$work/out.wasm" "$out"
