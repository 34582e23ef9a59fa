# For the scripts that run an x86-64 program on either kind of machine: `. tests/kit.sh`, after a `die` of their own.
# The kit is where `rt` stands. `tools` is its toolchain, `loader` its loader with the C library in $tools/lib, and `emulator` what runs them on another machine
# than x86-64, for which the kit has none: qemu-x86_64 where it is on PATH. It is empty on x86-64.
# shellcheck shell=sh disable=SC2034
rt=$(command -v rt) || die "rt, the command of the Rattle kit, is not on PATH"
while [ -L "$rt" ]; do
    link=$(readlink "$rt")
    case $link in /*) rt=$link ;; *) rt=$(dirname "$rt")/$link ;; esac
done
kit=${RATTLE_HOME:-$(cd "$(dirname "$rt")/.." && pwd -P)}
tools=$kit/toolchain
loader=$tools/lib/ld-linux-x86-64.so.2
emulator=''
[ "$(uname -m)" = x86_64 ] || emulator=$(command -v qemu-x86_64) || emulator=''
[ -f "$loader" ] || die "the kit at $kit has no loader for x86-64"
