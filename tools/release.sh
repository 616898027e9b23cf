#!/usr/bin/env bash
# What release/ holds for those who have no kit, and the sums by which ./sancus tells which sources a build is of.
#
#   tools/release.sh make     copies the proved build of crates/sancus_run/out to release/, and writes its note, release/RELEASE
#   tools/release.sh wasm     makes release/sancus.wasm of the same program, in some minutes, and adds it to the note
#   tools/release.sh check    says nothing where release/ holds the proved build, bit for bit, and fails where it doesn't
#   tools/release.sh stamp    writes beside the proved build what it is of; for where rt has just proved and built it
#   tools/release.sh sources  writes the sum of the sources
#   tools/release.sh list     writes the sum of each source and its name, the lines of which that is the sum
set -o pipefail

top="$(dirname -- "$(dirname -- "$(readlink -f -- "${BASH_SOURCE[0]}")")")"
built="$top/crates/sancus_run/out/sancus_run"
note="$top/release/RELEASE"
kept="$top/release/sancus_run"
wasm="$top/release/sancus.wasm"

die() {
  printf 'release: %s\n' "$*" >&2
  exit 1
}

# The sum of a file, or of the standard input.
sum_of() {
  sha256sum -- "${1:--}" | cut -d ' ' -f 1
}

# All that the program is made and proved from, in the order of the names' bytes: so the same in any folder and language.
list() {
  cd -- "$top" && {
    printf '%s\0' crates.txt HANDLES
    find crates -name out -prune -o -type f \( -name '*.rt' -o -name '*.antt' \) -print0 | LC_ALL=C sort -z
  } | xargs -0 sha256sum --
}

# What the note says of a word; nothing where it doesn't have it.
noted() {
  sed -n "s/^$1 //p" "$note" 2>/dev/null
}

# The newest version of the C library that a program asks for.
library_of() {
  LC_ALL=C grep -aoE 'GLIBC_[0-9]+(\.[0-9]+)+' -- "$1" | LC_ALL=C sort -V | tail -n 1 | cut -d _ -f 2
}

# The note's lines of a build. The processor is the one that every program of the kit tests for as it starts.
told() {
  local kit
  kit="$(rt version)" || die "the kit's command rt doesn't say its version"
  cat <<END
program sancus_run x86_64-linux-gnu
needs glibc $(library_of "$1"), processor x86-64-v2
kit $kit
sources $(list | sum_of)
bytes $(stat -c %s -- "$1")
sha256 $(sum_of "$1")
END
}

# The note's lines of release/sancus.wasm, if it is there: made of the program with the sum given.
told_wasm() {
  [[ -f "$wasm" ]] || return 0
  cat <<END
wasm-of $1
wasm-bytes $(stat -c %s -- "$wasm")
wasm-sha256 $(sum_of "$wasm")
END
}

# The note's lines of the native build alone.
build_lines() {
  grep -vE '^(wasm-|note )' "$note"
}

# Writes the note of these lines. The last one is the sum of those above: so a changed byte isn't taken for another kit.
write_note() {
  printf '%s\nnote %s\n' "$1" "$(printf '%s\n' "$1" | sum_of)" >"$note"
}

make() {
  [[ -x "$built" ]] || die "there is no proved build: run .ci/run"
  local lines more
  lines="$(told "$built")" || exit
  more="$(told_wasm "$(noted wasm-of)")"
  mkdir -p -- "$top/release" || exit
  # (a program that runs can't be written, only exchanged)
  cp -- "$built" "$kept.new" && mv -- "$kept.new" "$kept" || exit
  write_note "$lines${more:+$'\n'$more}"
}

make_wasm() {
  [[ -f "$kept" && -f "$note" ]] || die "release/ holds no build: tools/release.sh make"
  "$top/tools/wasm/make.sh" "$kept" "$wasm" || exit
  write_note "$(build_lines && told_wasm "$(noted sha256)")"
}

# What can be told without the kit: that the note is whole, and release/ holds what it names.
check_note() {
  [[ -f "$note" && -x "$kept" ]] || die "release/ holds no build: tools/release.sh make"
  [[ "$(sed '$d' "$note" | sum_of)" == "$(tail -n 1 "$note" | sed -n 's/^note //p')" ]] ||
    die "release/RELEASE isn't as it was written: tools/release.sh make"
  [[ "$(sum_of "$kept")" == "$(noted sha256)" ]] ||
    die "release/sancus_run isn't the build that its note names: tools/release.sh make"
  [[ ! -e "$wasm" && -z "$(noted wasm-of)" ]] || [[ "$(sum_of "$wasm")" == "$(noted wasm-sha256)" ]] ||
    die "release/sancus.wasm isn't the one that the note names: tools/release.sh wasm"
  [[ "$(list | sum_of)" == "$(noted sources)" ]] ||
    die "release/ is of other sources than those that are here: tools/release.sh make"
}

check() {
  check_note
  local kit
  kit="$(rt version)" || die "the kit's command rt doesn't say its version"
  if [[ "$kit" != "$(noted kit)" ]]; then
    echo "release: not compared with the build here, which is of another kit than the released one: $kit" >&2
    exit 0
  fi
  [[ -x "$built" ]] || die "there is no proved build to compare with: run .ci/run"
  cmp -- "$kept" "$built" >&2 || die "release/sancus_run isn't the build that was proved here: tools/release.sh make"
  [[ "$(told "$built")" == "$(build_lines)" ]] ||
    die "release/RELEASE isn't of this build: tools/release.sh make"
}

stamp() {
  [[ -x "$built" ]] || die "there is no proved build: run .ci/run"
  { echo "sha256 $(sum_of "$built")" && list; } >"$built.proved"
}

case "$#,$1" in
  1,make) make ;;
  1,wasm) make_wasm ;;
  1,check) check ;;
  1,stamp) stamp ;;
  1,sources) list | sum_of ;;
  1,list) list ;;
  *) die "usage: tools/release.sh make|wasm|check|stamp|sources|list" ;;
esac
