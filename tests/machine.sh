# What the machine needs, for the scripts that read this file with `.`: the library's programs and archive are for x86-64, and any other machine emulates that.

# install_missing PACKAGE...: Debian packages
install_missing() {
    echo "installing: $*" >&2
    apt-get install -y --no-install-recommends "$@" >&2 ||
        { apt-get update >&2 && apt-get install -y --no-install-recommends "$@" >&2; }
}

native() {
    [ "$(uname -m)" = x86_64 ]
}

# sets emulator: what goes before a program for x86-64. Rattle's programs load the C library for x86-64, which the emulator looks for below QEMU_LD_PREFIX
need_emulator() {
    emulator=
    native && return
    emulator=qemu-x86_64
    export QEMU_LD_PREFIX="${QEMU_LD_PREFIX:-/usr/x86_64-linux-gnu}"
    if ! command -v $emulator > /dev/null || [ ! -e "$QEMU_LD_PREFIX/lib64/ld-linux-x86-64.so.2" ]; then
        install_missing qemu-user libc6-amd64-cross
    fi
}

# sets cc, the C compiler for this machine itself, for programs without the library: nothing goes before them
need_own_compiler() {
    emulator= cc=gcc
    if ! command -v $cc > /dev/null || [ ! -e /usr/include/stdio.h ]; then
        install_missing gcc libc6-dev
    fi
}

# sets cc, the C compiler for x86-64. What it links is not static: Debian's libm.a for another machine names files that are not there
need_c() {
    cc=gcc headers=/usr/include package='gcc libc6-dev'
    native || { cc=x86_64-linux-gnu-gcc headers=/usr/x86_64-linux-gnu/include package='gcc-x86-64-linux-gnu libc6-dev-amd64-cross'; }
    if ! command -v $cc > /dev/null || [ ! -e $headers/stdio.h ]; then
        install_missing $package
    fi
}

# sets cc and emulator
need_compiler() {
    need_emulator
    need_c
}

# sets cxx, the C++ compiler for x86-64
need_cxx() {
    cxx=g++ package=g++
    native || { cxx=x86_64-linux-gnu-g++ package=g++-x86-64-linux-gnu; }
    command -v $cxx > /dev/null || install_missing $package
}
