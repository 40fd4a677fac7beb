# What the host programs are built and run with, found out once: sets CC, LIBM, RUN and EMULATOR. To be sourced.
# The archive is x86-64 code; on another machine a cross compiler builds for it and an emulator runs it. Instructions are counted in the emulator everywhere.

# need COMMAND PACKAGES: the command is there, or these of Debian's packages are installed where that is allowed.
need() {
    command -v "$1" >/dev/null && return
    if command -v apt-get >/dev/null && [ "$(id -u)" -eq 0 ]; then
        apt-get install -y --no-install-recommends $2 >/dev/null 2>&1 || { apt-get update && apt-get install -y --no-install-recommends $2; } >/dev/null 2>&1
    fi
    command -v "$1" >/dev/null || { echo "There is no command $1: install Debian's package $2."; exit 1; }
}

need gcc gcc
if [ "$(uname -m)" = x86_64 ]; then
    CC=gcc RUN= LIBM=-lm
else
    need x86_64-linux-gnu-gcc "gcc-x86-64-linux-gnu libc6-dev-amd64-cross"
    # The cross libm.a names its parts by the paths of an x86-64 machine, so the part that is needed is named itself.
    CC=x86_64-linux-gnu-gcc RUN="qemu-x86_64 -L /usr/x86_64-linux-gnu" LIBM=$(echo /usr/x86_64-linux-gnu/lib/libm-[0-9]*.a)
fi
need rustc rustc
need qemu-x86_64 qemu-user
CC="$CC -std=c11 -Wall -Wextra -Werror -O2 -Iinclude -Ihost -Ibench"
PLUGIN_CC="gcc -std=c11 -Wall -Wextra -Werror -O2 -Ibench -shared -fPIC"

# The processor is named, so that the C library chooses the same functions everywhere. The archive is made for x86-64-v2, so it is one of those.
EMULATOR="qemu-x86_64 -cpu Nehalem"

# emulated PLUGIN PROGRAM WORDS..: a program under one of the emulator's plugins, through the file that both map.
emulated() {
    $EMULATOR -plugin "build/$1_plugin.so,page=build/$1.page" "build/$2" "build/$1.page" "${@:3}"
}
