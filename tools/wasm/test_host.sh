#!/usr/bin/env bash
# Tests host.c, lower.py and host.js alone: heap, numbers of 128 bits, arguments and streams, against the C library of this machine.
# It takes the kit, node and a C compiler. Not a part of the gate.
set -euo pipefail
here="$(dirname "$(readlink -f "$0")")"
kit="${RATTLE_KIT:-$(dirname "$(dirname "$(readlink -f "$(command -v rt)")")")}"
clang="$kit/toolchain/bin/clang"
work="$(mktemp -d)"
trap 'rm -rf -- "$work"' EXIT
flags=(--target=wasm64-unknown-unknown -mcpu=lime1 -O2 --no-default-config -ffreestanding -fno-builtin -Wall)
"$clang" "${flags[@]}" -c "$here/host.c" -o "$work/host.o"
"$clang" "${flags[@]}" -c "$here/test_host.c" -o "$work/test.o"
ln -s "$clang" "$work/wasm-ld"
"$work/wasm-ld" -mwasm64 --no-entry --stack-first -z stack-size=65536 --gc-sections --strip-all --export-memory \
  -o "$work/64.wasm" "$work/host.o" "$work/test.o"
python3 "$here/lower.py" "$work/64.wasm" "$work/test.wasm"
"${CC:-cc}" -O1 "$here/test_host.c" -o "$work/native"
words=(one "" "exactly8" "more than 8" "ž")
printf 'an input of more than eight bytes' >"$work/input"
status=0
"$work/native" "${words[@]}" <"$work/input" >"$work/wanted" || status=$?
got=0
node "$here/run.mjs" "$work/test.wasm" "${words[@]}" <"$work/input" >"$work/got" || got=$?
head -n 2 "$work/got"
if ! cmp "$work/wanted" "$work/got" || [[ "$status" != 77 || "$got" != 77 ]]; then
  echo "FAILED: status $status natively, $got here"
  exit 1
fi
echo "ok: $(wc -c <"$work/got") bytes are the same"
