#!/usr/bin/env bash
# Compiles attacker.c and writes an input in which it is the untrusted code of node a beside the lighting application.
#
#   examples/c_attacker/run.sh [FOLDER]      writes FOLDER/attacker.elf and FOLDER/input.txt (by default the folder out here)
#   ./sancus run FOLDER/input.txt
#
# It takes clang with the target msp430, ld.lld and llvm-nm: on Debian the packages clang, lld and llvm. Look at: the items
# `raw port`, which are what the program prints; `read eye` and `take logic`, which it caused; `out lamp`; and, at the end,
# `reset a read`, where it reads logic's private section.

set -e
here="$(dirname -- "$(readlink -f -- "${BASH_SOURCE[0]}")")"
top="$(dirname -- "$(dirname -- "$here")")"
to="${1:-$here/out}"
lighting="$top/examples/lighting.txt"
mkdir -p -- "$to"

# No multiplier and no library: the profile of docs/MACHINE.md.
flags=(--target=msp430 -mhwmult=none "${LEVEL:--Os}" -ffreestanding -fno-builtin -fomit-frame-pointer -Wall -Werror)
for file in attacker arithmetic; do
  clang "${flags[@]}" -c "$here/$file.c" -o "$to/$file.o"
done
clang --target=msp430 -c "$here/start.S" -o "$to/start.o"
ld.lld -T "$here/node.ld" --gc-sections "$to/start.o" "$to/attacker.o" "$to/arithmetic.o" -o "$to/attacker.elf"
sent="$(llvm-nm "$to/attacker.elf" | awk '$3 == "sent" { print "0x" substr($1, 5) }')"

# The lighting application with a port and a knob on node a, up to where its modules have their keys.
{
  sed -n '/^%%$/q; p' "$lighting" |
    sed 's|^device = \[|device = [ { name = "port", node = "a", kind = "actuator", at = 0x0210 },\n           { name = "knob", node = "a", kind = "sensor", at = 0x0212 },\n          |'
  echo '%%'
  sed '1,/^%%$/d; /^# 3/,$d' "$lighting"
} >"$to/input.txt"
put="$("$top/sancus" hex put a "$to/attacker.elf" --pc --input "$to/input.txt")"
cat >>"$to/input.txt" <<END
# 3. The untrusted code of node a, compiled from C. It has eye sample its sensor, and carries the event to logic by itself.
$put
sense light 120
sense knob 5
run a 20000

# 4. An interrupt while it sleeps. The network takes what logic sent, and lamp shows it.
irq a 3
run a 100
take a $sent 24
give 10 b 0x300
call lamp 2 0x300 0x400

# 5. The same program with the knob at 7: it reads logic's private section, and the node is reset. Variables without a
#    value are still as the first run left them, since nothing clears them.
$put
sense light 50
sense knob 7
run a 20000
END
printf '%s\n' "$to/input.txt"
