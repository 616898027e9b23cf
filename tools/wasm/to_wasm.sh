#!/usr/bin/env bash
# Makes a WebAssembly command, of WASI preview 1, of the LLVM module that keep_bitcode.sh kept.
#
#   tools/wasm/to_wasm.sh MODULE.bc OUT.wasm
#
# That module is laid out for x86-64, whose addresses have 64 bits, as those of wasm64 have: so only its target is exchanged. host.c
# is in place of the C library, and lower.py cuts the addresses to 32 bits, which all browsers run. This takes the kit and
# Python alone: whoever has the kit makes the same file, bit for bit.
set -euo pipefail
here="$(dirname "$(readlink -f "$0")")"
kit="${RATTLE_KIT:-$(dirname "$(dirname "$(readlink -f "$(command -v rt)")")")}"
clang="$kit/toolchain/bin/clang"
bitcode="$1" out="$2"
work="$(mktemp -d)"
trap 'rm -rf -- "$work"' EXIT

# The data layout is the one that this clang has for wasm64.
readonly LAYOUT='e-m:e-p:64:64-p10:8:8-p20:8:8-i64:64-i128:128-n32:64-S128-ni:1:10:20'
"$clang" --target=x86_64-unknown-linux-gnu -x ir "$bitcode" -S -emit-llvm -O0 -Xclang -disable-llvm-passes -o "$work/x86.ll"
sed -e "s/^target datalayout = .*/target datalayout = \"$LAYOUT\"/" \
  -e 's/^target triple = .*/target triple = "wasm64-unknown-unknown"/' \
  -e '/^attributes /s/"probe-stack"="[^"]*"\|"stack-probe-size"="[^"]*"\|"target-cpu"="[^"]*"//g' \
  -e 's/^define i32 @main()/define i32 @program_main()/' \
  "$work/x86.ll" >"$work/wasm.ll"
for line in 'target datalayout = "e-m:e-p' 'target triple = "wasm64' 'define i32 @program_main()'; do
  if [[ "$(grep -cF "$line" "$work/wasm.ll")" != 1 ]]; then
    echo "to_wasm: the module has no line '$line' in place of its own: another kit writes it otherwise" >&2
    exit 1
  fi
done

# Those that the kit's rattle gives its clang for wasm64.
flags=(--target=wasm64-unknown-unknown -mcpu=lime1 -ffunction-sections -fdata-sections -O3 --no-default-config)
for flag in expand-div-rem-bits=64 expand-fp-convert-bits=64 trap-unreachable no-x86-call-frame-opt disable-machine-licm \
  disable-postra-machine-licm sink-common-insts=false; do
  flags+=(-mllvm "-$flag")
done
"$clang" "${flags[@]}" -c -x ir "$work/wasm.ll" -o "$work/program.o"
"$clang" "${flags[@]}" -c -ffreestanding -fno-builtin -Wall "$here/host.c" -o "$work/host.o"
ln -s "$clang" "$work/wasm-ld"
"$work/wasm-ld" -mwasm64 --no-entry --stack-first -z stack-size=$((4 * 1024 * 1024)) --gc-sections --strip-all \
  --fatal-warnings --export-memory --threads=1 -o "$work/64.wasm" "$work/program.o" "$work/host.o"
python3 "$here/lower.py" "$work/64.wasm" "$out"
