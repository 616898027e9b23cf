#!/usr/bin/env bash
# Keeps what rattle build makes of the proved program: its LLVM module, and the program as rt links it.
#
#   tools/wasm/keep_bitcode.sh MODULE.bc PROGRAM
#
# The libraries below the program must stand proved in crates/*/out, here or in the repository SANCUS_LIBRARIES (.ci/run or
# ./sancus build leaves them). rattle build proves the program's own crate, and hands one module to the clang of --toolchain:
# here a folder of links, whose clang is a script that keeps the module and then calls the kit's. So neither the kit nor the
# crates are changed.
set -euo pipefail
top="$(dirname "$(dirname "$(dirname "$(readlink -f "$0")")")")"
bitcode="$(readlink -f "$1")" program="$(readlink -f "$2")"
libraries="${SANCUS_LIBRARIES:-$top}"
kit="${RATTLE_KIT:-$(dirname "$(dirname "$(readlink -f "$(command -v rt)")")")}"
target=x86_64-unknown-linux-gnu
work="$(mktemp -d)"
trap 'rm -rf -- "$work"' EXIT

mkdir -p "$work/toolchain/bin"
ln -s "$kit/toolchain/lib" "$work/toolchain/lib"
for name in ld.lld llvm-ar rattle-x64; do
  ln -s "$kit/toolchain/bin/$name" "$work/toolchain/bin/$name"
done
cat >"$work/toolchain/bin/clang" <<END
#!/usr/bin/env bash
[[ -f module.bc ]] && cp -- module.bc '$bitcode'
exec '$kit/toolchain/bin/clang' "\$@"
END
chmod +x "$work/toolchain/bin/clang"

top_crate="$libraries/crates/sx_top/out/rlib/sx_top.rlib"
if [[ ! -e "$top_crate" ]]; then
  echo "keep_bitcode: no proved libraries stand in $libraries: .ci/run or ./sancus build leaves them" >&2
  exit 1
fi

cd "$top/crates/sancus_run"
words=(--crate-name sancus_run src/main.rt --extern "std=$kit/rlibs/std.rlib" -L "dependency=$kit/rlibs")
words+=(--extern "sx_top=$top_crate")
for folder in "$libraries"/crates/*/out/rlib; do
  words+=(-L "dependency=$folder")
done
words+=(--antt-project "$kit/rattle/logic/antt-project.json" --logic-built "$kit/logic_built" --jobs 1 --links sancus_run=)
build() {
  "$kit/bin/rattle" build "${words[@]}" --toolchain "$work/toolchain" --backend llvm -o "$work/sancus_run.o" &&
    "$kit/bin/rattle-link" --target "$target" --toolchain "$kit/toolchain" -o "$program" "$work/sancus_run.o" \
      "$kit/c/libos_c.a" "$kit/c/liblibc_c.a"
}
if ! build >"$work/told" 2>&1; then
  tail -n 30 "$work/told" >&2
  exit 1
fi
