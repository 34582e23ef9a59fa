#!/bin/bash
# Holds tests/stack-bound to the functions of tests/count/frames.c, whose stack is known: a bound has all that its function is known or measured to need, and
# little more; and a function that can have no bound is reported. Prints a line for each case, and at last 'N passed, M failed'.
#   tests/stack_cases.sh
set -u

die() { printf 'tests/stack_cases.sh: %s\n' "$*" >&2; exit 2; }

here=$(cd "$(dirname "$0")/.." && pwd -P)
room=$(mktemp -d) || die "no temporary folder"
trap 'rm -rf "$room"' EXIT
# shellcheck source=tests/compiler.sh
. "$here/tests/compiler.sh"
frames=$here/tests/count/frames.c
"$compiler" -std=c11 -Wall -Wextra -Werror -O2 -fPIE -ffunction-sections -fno-stack-protector -fcf-protection=none -U_FORTIFY_SOURCE -c -o "$room/frames.o" "$frames" || die "they do not compile"
"$compiler" -std=c11 -Wall -Wextra -Werror -O2 -static -o "$room/frames" "$room/frames.o" "$here/tests/count/paint.c" || die "they do not link"
${emulator:+"$emulator"} "$room/frames" >"$room/needed" || die "they are not measured"
"$here/tests/stack-bound" "$room/frames.o" "$frames" repeated=5 >"$room/bounds" 2>"$room/reported"
status=$?

passed=0 failed=0
judge() { # NAME STATUS: counts a case
    if [ "$2" -eq 0 ]; then passed=$((passed + 1)); echo "ok   $1"; else failed=$((failed + 1)); echo "FAIL $1"; fi
}
while read -r name needed more; do
    bound=$(awk -v name="$name" '$1 == name { print $2 }' "$room/bounds")
    [ -n "$bound" ] && [ "$needed" -le "$bound" ] && [ "$bound" -le $((needed + more)) ]
    judge "$name needs $needed bytes, bound ${bound:-none}" $?
done <"$room/needed"
while read -r name why; do
    grep -q "^tests/stack-bound: $name: .*$why" "$room/reported" && ! grep -q "^$name " "$room/bounds"
    judge "$name has no bound: $why" $?
done <<'END'
as_long_as the stack pointer in a form that is not known
aligned the stack pointer in a form that is not known
through it is indirect
on_through it is indirect
by_either_table it is indirect
itself calls itself
each_other calls itself by way of other
elsewhere puts is not in the library
END
[ "$status" -eq 1 ] && [ $((passed + failed)) -eq "$(grep -c '^void [a-z_]*(.*);$' "$frames")" ]
judge "every function is a case, and one without a bound is a failure" $?
echo "$passed passed, $failed failed"
[ "$failed" -eq 0 ]
