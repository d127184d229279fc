# Programs for a target, and how they are run, for the scripts of this folder; `out` is a folder
# that is removed at the end, and out/NAME has the installed library of the target NAME.
out=$(mktemp -d)
trap 'rm -rf "$out"' EXIT
vectors=$(echo tests/reference/vectors/*.txt jobs/*.job)
ram=0x400000 # of a board without an operating system, for tables of any size
warnings='-std=c11 -Wall -Wextra -Wpedantic -Werror -Iinclude -Ibindings/c -Itests/targets'

link_bare() { # NAME PROGRAM SOURCE..: a program with no C library, in 4 MB of memory
    local name=$1 program=$2 code=0 board=examples/embedded/board
    shift 2
    target "$name"
    [ "$name" != riscv32 ] || code=0x10000
    # shellcheck disable=SC2086
    $compiler $options -Os $warnings -ffreestanding -ffunction-sections -fno-tree-loop-distribute-patterns -nostdlib \
        -T $board/memory.ld -Wl,--gc-sections,-z,noexecstack \
        -Wl,--defsym=code=$code,--defsym=ram=0x20000000,--defsym=ram_size=$ram \
        -Wl,--defsym=stack_size=65536 "$@" \
        tests/targets/bare.c $board/*.c "$out/$name/lib/libpolgamir.a" -lgcc -o "$program"
}

link_linux() { # NAME PROGRAM SOURCE..
    local name=$1 program=$2
    shift 2
    target "$name" || compiler=cc options='' # x86-64 is no other target
    # shellcheck disable=SC2086
    $compiler $options -O2 $warnings -static "$@" "$out/$name/lib/libpolgamir.a" -o "$program"
}

traced='' # options that tell what is executed
emulate() { # NAME PROGRAM WORD..
    local name=$1 program=$2 words='' word
    shift 2
    for word in program "$@"; do words="$words,arg=$word"; done
    local board="-display none -monitor none -serial none -chardev stdio,id=out"
    board="$board -semihosting-config enable=on,target=native,chardev=out$words -kernel $program"
    # shellcheck disable=SC2086
    case $name in
    x86-64-linux) qemu-x86_64 $traced "$program" "$@" ;;
    aarch64-linux) qemu-aarch64 $traced "$program" "$@" ;;
    armv7-linux) qemu-arm $traced "$program" "$@" ;;
    riscv64-linux) qemu-riscv64 $traced "$program" "$@" ;;
    riscv32) qemu-riscv32 $traced "$program" "$@" ;;
    cortex-m4f) qemu-system-arm $traced -M mps2-an386 $board ;;
    # the board itself has 16 KB
    cortex-m0plus) qemu-system-arm $traced -M microbit -global nrf51-soc.sram-size=$ram $board ;;
    esac
}
