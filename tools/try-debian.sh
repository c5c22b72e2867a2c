#!/usr/bin/env bash
# Whether the packages that README.md names are enough: makes a bare Debian 13 in a folder, installs exactly those, and runs tools/try-all.sh there, in a fresh
# clone of the last commit. By hand, as root: it is no part of the gate. Needs debootstrap, git and a way to Debian's packages.
#
#   tools/try-debian.sh [PART..]     the parts of tools/try-all.sh; all of them without a name
#   ROOM=DIR     make the Debian there and leave it, or take the one that is there; else it is made in a temporary folder and taken away again
#   ARCH=amd64   another architecture than this machine's, whose programs an emulator must then run (Debian's qemu-user-static and binfmt_misc)
#
# The Rattle toolchain is no package: its folder is shown to the Debian, to be read. CAPGAUZE_ARCHIVE=FILE and CAPGAUZE_PROGRAMS=DIR name what is proved already;
# both are copied. The status is try-all.sh's.
set -eu
root=$(cd "$(dirname "${BASH_SOURCE[0]}")/.." && pwd)
suite=trixie
arch=${ARCH:-$(dpkg --print-architecture)}
[ "$(id -u)" = 0 ] || { echo 'try-debian.sh: only root can make a Debian' >&2; exit 2; }
kept=${ROOM:-}
room=${ROOM:-$(mktemp -d)}
mounted=()

leave() {
    local i
    for ((i = ${#mounted[@]} - 1; i >= 0; i--)); do umount "${mounted[i]}" || return; done
    [ -n "$kept" ] || rm -rf --one-file-system "$room"
}
trap leave EXIT

show() { # FOLDER [OPTION..]: a folder of this machine at the same place
    mkdir -p "$room$1"
    mount --bind "${@:2}" "$1" "$room$1"
    mounted+=("$room$1")
}

# ---- The Debian ----
# what stands between backquotes in the second column of README's table
mapfile -t packages < <(sed -n '/^| for | packages |$/,/^$/s/^|[^|]*|\(.*\)|$/\1/p' "$root/README.md" | grep -o '`[a-z0-9+.-]*`' | tr -d '`' | sort -u)
[ "${#packages[@]}" -gt 20 ] || { echo 'try-debian.sh: README.md has no table of packages' >&2; exit 2; }
if [ ! -x "$room/usr/bin/apt-get" ]; then
    echo "making Debian 13 ($suite, $arch) in $room"
    debootstrap --variant=minbase --arch="$arch" "$suite" "$room" >"$room.log" 2>&1 || { tail -n 5 "$room.log" >&2; exit 1; }
    rm -f "$room.log"
fi
show /proc
show /dev
show /dev/pts
cp -L /etc/resolv.conf "$room/etc/resolv.conf"
inside() { chroot "$room" /usr/bin/env -i HOME=/root PATH=/usr/local/bin:/usr/bin:/bin:/usr/sbin:/sbin DEBIAN_FRONTEND=noninteractive "$@"; }
echo "installing git, libc6-dev and ${#packages[@]} packages that README.md names"
inside apt-get update -qq
inside apt-get install -qq --no-install-recommends git libc6-dev "${packages[@]}" >"$room/root/packages.log" 2>&1 || { tail -n 5 "$room/root/packages.log" >&2; exit 1; }

# ---- The toolchain, and what is proved already ----
proved=()
if [ -n "${CAPGAUZE_ARCHIVE:-}" ]; then
    cp "$CAPGAUZE_ARCHIVE" "$room/root/libcapgauze_c.a"
    proved+=(CAPGAUZE_ARCHIVE=/root/libcapgauze_c.a)
fi
if [ -n "${CAPGAUZE_PROGRAMS:-}" ]; then
    rm -rf "$room/root/programs"
    cp -r "$CAPGAUZE_PROGRAMS" "$room/root/programs"
    proved+=(CAPGAUZE_PROGRAMS=/root/programs)
fi
if command -v rt >/dev/null; then
    kit=$(dirname "$(dirname "$(readlink -f "$(command -v rt)")")")
    show "$kit" -o ro
    ln -sf "$kit/bin/rt" "$room/usr/local/bin/rt"
fi

# ---- All of it ----
rm -rf "$room/root/capgauze"
git clone --quiet "$root" "$room/root/capgauze"
chown -R 0:0 "$room/root/capgauze"
inside "${proved[@]}" /root/capgauze/tools/try-all.sh "$@"
