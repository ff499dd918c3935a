#!/bin/sh
# Reads the blocks of one and of four copies that the tests of records pin with the structures of the Linux kernel, goes from
# section to section as the kernel does, and compares the registers, the severities and the counts. Not part of the gate: it
# is skipped where there is no C compiler or no kernel header. Debian has the headers in packages whose names are
# linux-headers-VERSION-common (apt-cache search linux-headers).
set -eu
cd "$(dirname "$0")/.."

headers=
for dir in /usr/src/linux-headers-*-common/include; do
    if [ -f "$dir/acpi/actbl1.h" ] && [ -f "$dir/acpi/ghes.h" ]; then headers=$dir; fi
done
if [ -z "$headers" ]; then echo "kernel_block: skipped, no kernel headers under /usr/src"; exit 0; fi
if ! command -v cc >/dev/null; then echo "kernel_block: skipped, no C compiler"; exit 0; fi

work=$(mktemp -d)
trap 'rm -rf "$work"' EXIT
# the kernel's own steps from section to section
sed -n '/^static inline int acpi_hest_get_version/,/acpi_hest_get_next(section))/p' "$headers/acpi/ghes.h" >"$work/ghes_walk.h"
cc -std=gnu11 -Wall -I "$work" -idirafter "$headers" -o "$work/kernel_block" checks/kernel_block.c
block() {
    sed -n "/const $1 = \[/,/];/p" crates/record_tests/src/blocks.rt | sed '1d;$d' | tr -d ' \n'
}
block 'BLOCK: Block' | "$work/kernel_block" 1
block 'BLOCK_OF_FOUR: \[u8; 500\]' | "$work/kernel_block" 4
echo "kernel_block: blocks of one and of four copies, read by the structures of $headers"
