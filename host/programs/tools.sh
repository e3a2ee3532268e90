# Sourced by the scripts here, in this folder: compiles C for ColdFire and for this machine, and writes image files. The scripts
# have a folder of their own in `work`.

# coldfire START WORDS..: $work/elf, the program that the instructions START begin, with code from 0, by gcc with WORDS.
coldfire() {
    printf '.text\n.globl _start\n_start: %s\n' "$1" >"$work/start.s"
    m68k-linux-gnu-gcc -O2 -ffreestanding -nostdlib -Wl,-Ttext=0,--build-id=none,-z,noexecstack -o "$work/elf" "$work/start.s" "${@:2}"
}

# answer DECLARATION CALL WORDS..: what the call returns on this machine, as D0 and D1 have it on a ColdFire.
answer() {
    cat >"$work/answer.c" <<END
#include <stdio.h>
unsigned long long $1;
int main(void)
{
    unsigned long long answer = $2;
    printf("%08llx %08llx\n", answer >> 32, answer & 0xFFFFFFFF);
}
END
    gcc -O2 -o "$work/answer" "$work/answer.c" "${@:3}"
    "$work/answer"
}

# image STACK BUDGET DIGITS: an image file of the bytes that the hexadecimal DIGITS say, from address 0: version 1, length, PC 0,
# A7, SR 0x2700 and the budget.
image() {
    local head
    head=01$(printf '%08X%08X%08X2700%08X' $((${#3} / 2 + 14)) 0 "$1" "$2")
    printf "$(sed 's/../\\x&/g' <<<"$head$3")"
}
