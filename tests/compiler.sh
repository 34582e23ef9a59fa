# For the scripts that build C for x86-64 on either kind of machine: `. tests/compiler.sh`, with `here` the top of the repository, `room` a folder of their own, and a `die`.
# `compiler` is gcc on x86-64; on another machine it is Debian's cross compiler, installed here where it is missing, with -static in `static`, and `emulator` runs what it builds.
# shellcheck shell=sh disable=SC2034,SC2154
emulator='' static=''
if [ "$(uname -m)" = x86_64 ]; then
    compiler=gcc
    command -v gcc >/dev/null || die "gcc is not there: install Debian's gcc and libc6-dev"
else
    compiler=x86_64-linux-gnu-gcc packages='gcc-x86-64-linux-gnu libc6-dev-amd64-cross' static=-static
    if ! command -v "$compiler" >/dev/null || [ ! -f /usr/x86_64-linux-gnu/lib/libc.a ]; then
        [ "$(id -u)" = 0 ] || die "$compiler or its C library is not there, and only root can install it: apt-get install $packages"
        # shellcheck disable=SC2086
        { apt-get install -y --no-install-recommends $packages || { apt-get update && apt-get install -y --no-install-recommends $packages; }; } \
            >"$room/apt" 2>&1 || { tail -5 "$room/apt" >&2; die "apt-get could not install $packages"; }
    fi
    # shellcheck source=tests/kit.sh
    . "$here/tests/kit.sh"
    [ -n "$emulator" ] || die "qemu-x86_64 is not on PATH, and this machine is $(uname -m): install Debian's qemu-user"
fi
