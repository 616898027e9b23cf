#!/usr/bin/env bash
# What .ci/run checks after `rt ci` has passed: whether release/ holds the build that was proved, whether each wrong body and each wrong system
# still applies, whether commands take the processor's instructions that they took, if valgrind is installed and the processor is the one that the
# figures are of, whether the pages that are made of the sources are up to date, whether a function calls itself that tools/recursion.txt doesn't
# list, what mypy 1.0.1 and ruff find if they are installed, and the rows and other tests of tests/. It says nothing if all is well. Without Python
# 3.10 only the release is compared.
cd "$(dirname "$0")/.." || exit 1
if [ -x crates/sancus_run/out/sancus_run ]; then
  tools/release.sh stamp && tools/release.sh check || exit
fi
python3 -c 'import sys; sys.exit(sys.version_info < (3, 10))' 2>/dev/null || exit 0
python3 tools/try_wrong_bodies.py --applies && python3 tools/try_wrong_systems.py --applies || exit
if [ -x crates/sancus_run/out/sancus_run ]; then
  python3 bench/instructions.py --gate || exit
fi
python3 tools/crate_lists.py && python3 tools/contracts.py && python3 tools/recursion.py || exit
# (each release of mypy finds other things; the settings were tried with this one)
case "$(mypy --version 2>/dev/null)" in
  'mypy 1.0.1 '*) mypy --no-error-summary >&2 || exit ;;
esac
# (what another release finds is said and ends nothing)
if command -v ruff >/dev/null; then
  ruff check --quiet --no-cache >&2
fi
said="$(mktemp)" || exit
# (tests that are ended early end)
trap 'jobs -p | xargs -r kill; rm -f -- "$said"' EXIT
python3 -m unittest discover -s tests >"$said" 2>&1 && exit
cat -- "$said"
exit 1
