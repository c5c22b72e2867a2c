# Sourced by the scripts that link the archive of tools/build.sh, which is for x86-64 Linux. It sets CC, CXX and RUN, what
# a program is run by: nothing, on x86-64. Elsewhere a cross compiler and an emulator take their place, e.g. Debian's
# g++-x86-64-linux-gnu and qemu-user; QEMU_LD_PREFIX names the folder with the x86-64 libraries, and cargo needs the
# standard library for that target. A time taken under an emulator says nothing.
[ "$(uname -m)" != x86_64 ] || RUN=
RUN=${RUN-qemu-x86_64}
if [ -z "$RUN" ]; then
    CC=${CC:-gcc} CXX=${CXX:-g++}
else
    CC=${CC:-x86_64-linux-gnu-gcc} CXX=${CXX:-x86_64-linux-gnu-g++}
    export QEMU_LD_PREFIX="${QEMU_LD_PREFIX:-/usr/x86_64-linux-gnu}"
    export CARGO_BUILD_TARGET=x86_64-unknown-linux-gnu
    export CARGO_TARGET_X86_64_UNKNOWN_LINUX_GNU_LINKER="$CC"
    export CARGO_TARGET_X86_64_UNKNOWN_LINUX_GNU_RUNNER="$RUN"
fi

# The archive: $CAPGAUZE_ARCHIVE, or the one that is proved and written here.
archive() {
    if [ -z "${CAPGAUZE_ARCHIVE:-}" ]; then
        "$root/tools/build.sh" library >&2
        CAPGAUZE_ARCHIVE=$root/target/staticlib/libcapgauze_c.a
    fi
    export CAPGAUZE_ARCHIVE
}
