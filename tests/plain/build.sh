# For the scripts that count: `. tests/plain/build.sh`, with `here` the top of the repository, `room` a folder of their own, and a `die`.
# Builds the plain C of this folder twice, $room/plain-gcc.a by gcc -O3 and $room/plain-clang.a by the kit's clang -O3, which is what compiles the crates,
# and holds each to the stored outside cases: what does other work is not worth counting.
# shellcheck shell=bash disable=SC2154
# shellcheck source=tests/compiler.sh
. "$here/tests/compiler.sh"
# shellcheck source=tests/kit.sh
. "$here/tests/kit.sh"
for source in "$here"/tests/plain/*.c; do
    name=$(basename "$source" .c)
    "$compiler" -std=c11 -Wall -Wextra -Werror -O3 -I"$here/include" -c -o "$room/$name-gcc.o" "$source"
    # the kit has no headers for C: gcc puts them in
    "$compiler" -std=c11 -E -P -I"$here/include" -o "$room/$name.i" "$source"
    "$tools/bin/clang" --target=x86_64-unknown-linux-gnu -march=x86-64 -fPIE -O3 -std=c11 -Wno-unknown-attributes -c -o "$room/$name-clang.o" "$room/$name.i"
done
# of `make`, case kind 23, there is no function for C: the driver passes its cases over
paste -d ' ' "$here/crates/vectors/stdin" "$here/crates/vectors/stdout" | sed '/^17/d; s/^[^ ]* //' >"$room/stored"
for by in gcc clang; do
    "${compiler%gcc}ar" rcs "$room/plain-$by.a" "$room"/*-$by.o
    # shellcheck disable=SC2086
    "$compiler" -std=c11 -O2 $static -I"$here/include" -o "$room/driver-$by" "$here"/tests/c/*.c "$room/plain-$by.a"
    ${emulator:+"$emulator"} "$room/driver-$by" cases <"$here/crates/vectors/stdin" | cmp - "$room/stored" || die "the plain C by $by differs from the outside cases"
done
