#!/usr/bin/env bash
# Makes the WebAssembly build of a program that was proved here, in some minutes of one processor.
#
#   tools/wasm/make.sh PROGRAM OUT.wasm
#
# It is refused where PROGRAM isn't, bit for bit, the program that is linked of the same LLVM module.
set -euo pipefail
here="$(dirname "$(readlink -f "$0")")"
work="$(mktemp -d)"
trap 'rm -rf -- "$work"' EXIT
"$here/keep_bitcode.sh" "$work/module.bc" "$work/program"
if ! cmp -- "$work/program" "$1" >&2; then
  echo "make: $1 isn't the program that is made of the libraries that stand here" >&2
  exit 1
fi
"$here/to_wasm.sh" "$work/module.bc" "$work/out.wasm"
cp -- "$work/out.wasm" "$2"
