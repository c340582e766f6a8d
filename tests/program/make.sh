#!/bin/sh
# Makes figures.words anew from figures.c, averages.c and start.S, and tries the words on Unicorn, which is QEMU's MIPS, but for zero divisors.
# Needs Debian's packages gcc, gcc-mipsel-linux-gnu, binutils-mipsel-linux-gnu and libunicorn-dev; the test that runs the words does not.
set -e
cd "$(dirname "$0")"

need() {
    command -v "$1" > /dev/null || { echo "make.sh: $1 is not installed; Debian's package is $2" >&2; exit 1; }
}
need gcc gcc
need mipsel-linux-gnu-gcc gcc-mipsel-linux-gnu
need mipsel-linux-gnu-objcopy binutils-mipsel-linux-gnu
echo '#include <unicorn/unicorn.h>' | gcc -E - > /dev/null 2>&1 || {
    echo "make.sh: Unicorn's header is not installed; Debian's package is libunicorn-dev" >&2
    exit 1
}

folder=$(mktemp -d)
trap 'rm -rf "$folder"' EXIT

# No instructions beyond document 01's 72, and nothing that needs a library or a loader. Calls stay calls, so that they are tried.
mipsel-linux-gnu-gcc -EL -mips2 -mabi=32 -msoft-float -mno-branch-likely -O2 -fno-inline -Wall -Wextra -Werror -ffreestanding -nostdlib \
    -static -no-pie -fno-pic -mno-abicalls -G0 -Wl,--build-id=none -Wl,-T,program.ld -o "$folder/program" start.S figures.c \
    averages.c

# Lines of a section: mark, address, word.
words() {
    mipsel-linux-gnu-objcopy -O binary -j "$2" "$folder/program" "$folder/section"
    od -An -v -t x4 -w4 --endian=little "$folder/section" |
        awk -v mark="$1" -v at="$3" '{ printf "%s %08x %s\n", mark, at + 4 * (NR - 1), $1 }'
}

{
    echo "# figures.c, averages.c and start.S compiled for CC100-C by make.sh: c code or d data, the address, the word."
    echo "# $(mipsel-linux-gnu-gcc --version | head -n 1), $(mipsel-linux-gnu-as --version | head -n 1)"
    words c .text 4096
    words d .rodata 8192
} > "$folder/figures.words"
mv "$folder/figures.words" figures.words

gcc -std=c11 -O2 -Wall -Wextra -Werror -o "$folder/qemu" qemu.c tables.c words.c compare.c figures.c averages.c -lunicorn
"$folder/qemu" figures.words
