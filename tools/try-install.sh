#!/usr/bin/env bash
# Installs into fresh folders, uses what is there as a user does, takes it away again, and compares each with what `./install --help` says. By hand: it
# is no part of the gate. Ends in 'N right, M wrong', with status 1 if one is wrong.
#
# CAPGAUZE_ARCHIVE and CAPGAUZE_PROGRAMS name what is proved already; else ./install proves it. Needs pkg-config, gcc, binutils and man-db.
set -u
root=$(cd "$(dirname "$0")/.." && pwd)
cd "$root" || exit 1
room=$(mktemp -d)
chmod 755 "$room"
trap 'rm -rf "$room"' EXIT
. tools/try.sh
name=install
prefix=$room/made/here
version=$(sed -n 's/^#define CAPGAUZE_VERSION "\(.*\)"$/\1/p' bindings/c/capgauze.h)
major=${version%%.*}

# a run: its status, what it printed, what it said; with no PATH to the toolchain, as one who only uses what is installed
run() { # COMMAND..
    env -i HOME="$room" PATH=/usr/bin:/bin LC_ALL=C.UTF-8 "$@" >"$room/out" 2>"$room/err"
    status=$? out=$(cat "$room/out") err=$(cat "$room/err")
}
install() { # ARGUMENT..
    ./install "$@" >"$room/out" 2>"$room/err"
    status=$? out=$(cat "$room/out") err=$(cat "$room/err")
}
all_under() { (cd "$1" && find . ! -type d | sed 's|^\./||' | sort); }
listed() { sed -n 's/^file //p' "$1/share/capgauze/installed" | sort; }

# The programs that are installed are the ones that were built, and answer as those do.
try_programs() {
    for name in dump soundings; do
        built=${CAPGAUZE_PROGRAMS:-$root/target/bin}/$name
        program=$prefix/bin/$name
        for frames in "$root"/examples/*.hex; do
            run "$program" "$frames"
            is "$frames: status" 0 "$status"
            is "$frames: output" "$("$built" "$frames")" "$out"
        done
        run "$program" <"crates/$name/stdin"
        is 'lines of every kind' "$(cat "crates/$name/stdout")" "$out"
        run "$program" "$room/missing"
        is 'a file that is missing: status' 1 "$status"
        is 'a file that is missing: error' "$name: $room/missing: No such file or directory" "$err"
        run "$program" --wrong
        is 'an unknown option: status' 2 "$status"
        run "$program" <&-
        is 'no standard input: error' "$name: standard input: Bad file descriptor" "$err"
        yes 0401 | head -n 200000 | { "$program"; echo $? >"$room/status"; } | head -n 1 >/dev/null
        is 'a closed pipe: status' 141 "$(cat "$room/status")"
        run "$program" --help
        is help "$("./$name" --help)" "$out"
        run "$program" --version
        is version "$("./$name" --version)" "$out"
        is 'version: that of the header' "$name (capgauze) $version" "$(sed -n 1p "$room/out")"
        ln -sf "$program" "$room/other-name"
        run "$room/other-name" "$root/examples/iced.hex"
        is 'through a link of another name' "$("$built" "$root/examples/iced.hex")" "$out"
        page=$prefix/share/man/man1/$name.1
        run man --warnings -l "$page"
        is 'man page: status' 0 "$status"
        is 'man page: said' '' "$err"
        is 'man page: is rendered' yes "$(grep -q 'EXIT STATUS' "$room/out" && echo yes)"
        is 'man page: version' "capgauze $version" "$(sed -n '1s/.*"\(capgauze [0-9.]*\)".*/\1/p' "$page")"
    done
    name=install
}

# An example compiled as pkg-config says, with the shared library and with the static one.
try_library() {
    library=$prefix/lib/libcapgauze.so.$version
    is 'the name that a program asks for' "[libcapgauze.so.$major]" "$(readelf -d "$library" | sed -n 's/.*soname: //p')"
    grep -o '^[a-z].*\bcapgauze_[a-z0-9_]*(' bindings/c/capgauze.h | grep -v '^static' | sed 's/.*\b\(capgauze_[a-z0-9_]*\)($/\1/' | sort >"$room/declared"
    is 'exported: what the header declares' "$(cat "$room/declared")" "$(nm -D --defined-only "$library" | sed 's/.* //' | sort)"
    is 'needed by the library' '' "$(readelf -d "$library" | grep NEEDED | grep -v 'libc\.so')"
    export PKG_CONFIG_PATH=$prefix/lib/pkgconfig
    is 'pkg-config: version' "$version" "$(pkg-config --modversion capgauze)"
    cp bindings/c/example.c "$room/"
    for kind in shared static; do
        [ $kind = static ] && link=-static || link=
        # shellcheck disable=SC2046
        gcc -std=c99 -Wall -Wextra -Werror $link "$room/example.c" $(pkg-config --cflags --libs ${link:+--static} capgauze) -o "$room/example"
        is "the example, $kind: is compiled" 0 $?
        run "$room/example" "$root/examples/iced.hex" "$root/examples/rows.hex"
        is "the example, $kind: status" 0 "$status"
        is "the example, $kind: output" "$(cat bindings/c/example.txt)" "$out"
        is "the example, $kind: its library" "$([ $kind = static ] || echo "$prefix/lib/libcapgauze.so.$major")" \
            "$(ldd "$room/example" 2>/dev/null | sed -n 's/.*libcapgauze.* => \(.*\) (.*/\1/p')"
    done
}

try_again() {
    before=$(cat "$prefix/share/capgauze/installed")
    install --prefix "$prefix"
    is 'again: status' 0 "$status"
    is 'again: the list' "$before" "$(cat "$prefix/share/capgauze/installed")"
    # a file of another version, which the list names and the new one has not
    touch "$prefix/lib/libcapgauze.so.9.9.9"
    echo 'file lib/libcapgauze.so.9.9.9' >>"$prefix/share/capgauze/installed"
    install --prefix="$prefix"
    is 'over another version: the list' "$before" "$(cat "$prefix/share/capgauze/installed")"
    is 'over another version: the files' "$(listed "$prefix")" "$(all_under "$prefix")"
}

try_removal() {
    touch "$prefix/lib/of-another"
    install --remove --prefix "$prefix"
    is 'remove, beside a file of another: status' 0 "$status"
    is 'remove, beside a file of another: what is left' './lib/of-another' "$(cd "$prefix" && find . -type f)"
    is 'remove, beside a file of another: folders' './lib' "$(cd "$prefix" && find . -mindepth 1 -type d)"
    rm -r "$room/made"
    install --prefix "$prefix"
    install --remove --prefix "$prefix"
    is 'remove: status' 0 "$status"
    is 'remove: nothing is left' '' "$(find "$room/made" 2>/dev/null)"
    install --remove --prefix "$prefix"
    is 'remove twice: status' 1 "$status"
    is 'remove twice: error' "install: nothing is installed under $prefix" "$err"
}

# What may not be done is refused before anything is changed.
try_refusals() {
    mkdir -p "$room/full/bin"
    echo mine >"$room/full/bin/dump"
    install --prefix "$room/full"
    is 'a file of another: status' 1 "$status"
    is 'a file of another: error' "install: $room/full/bin/dump is there, and was not installed by this; nothing was changed" "$err"
    is 'a file of another: all is as it was' "bin/dump mine" "$(all_under "$room/full") $(cat "$room/full/bin/dump")"
    is 'a file of another: no folder is made' ./bin "$(cd "$room/full" && find . -mindepth 1 -type d)"
    install --prefix "$room/full/bin/dump/x"
    is 'below a file: status' 1 "$status"
    is 'below a file: error' "install: $room/full/bin/dump is no folder" "$err"
    install --prefix "$room/a folder"
    is 'a space in its name: status' 1 "$status"
    install --wrong
    is 'an unknown option: status' 2 "$status"
    is 'an unknown option: error' 'install: there is no option --wrong' "$(sed -n 1p "$room/err")"
    install --prefix
    is 'no folder behind --prefix: status' 2 "$status"
    install --help
    is 'help: status' 0 "$status"
    is 'help: every file has its place there' '' "$(for path in $(sed -n 's/^file //p' "$room/list"); do
        case $path in *libcapgauze.so.*) path=libcapgauze.so.VERSION ;; share/man/* | libexec/* | lib/libcapgauze.so) path=${path%/*} ;; esac
        grep -qF "$path" "$room/out" || echo "$path"
    done)"
    mkdir -m 555 "$room/shut"
    if [ "$(id -u)" != 0 ]; then
        install --prefix "$room/shut"
    elif command -v setpriv >/dev/null && setpriv --reuid=65534 --regid=65534 --clear-groups test -r "$root/tools/prove.sh" 2>/dev/null; then
        setpriv --reuid=65534 --regid=65534 --clear-groups ./install --prefix "$room/shut" >"$room/out" 2>"$room/err"
        status=$? err=$(cat "$room/err")
    else
        echo 'install: not tried: a folder that may not be written (root may write all)'
        return
    fi
    is 'a folder that may not be written: status' 1 "$status"
    is 'a folder that may not be written: error' "install: $room/shut may not be written" "$err"
}

# What is not proved is not installed; each crate's line is shown as it comes. Here another `rt` is used, which proves one crate and fails at all others.
try_failed_proof() {
    mkdir "$room/stand-in"
    echo stand-in >"$room/KIT-ID"
    printf '#!/bin/sh\n[ "$1" != version ] || exit\necho "fn some::function: proved"\ncase $PWD in */wire) exit ;; esac\nsleep 1\nexit 1\n' >"$room/stand-in/rt"
    chmod +x "$room/stand-in/rt"
    env -u CAPGAUZE_ARCHIVE -u CAPGAUZE_PROGRAMS PATH="$room/stand-in:$PATH" ./install --prefix "$room/unproved" >"$room/out" 2>"$room/err"
    is 'not proved: status' 1 $?
    is 'not proved: shown' "$(printf 'rt: wire proved (N s)\nrt: NAME failed')" "$(sed -n '2,3{s/(.* s)/(N s)/; s/: .* failed/: NAME failed/; p}' "$room/err")"
    is 'not proved: the end' "install: the library: not proved, and nothing was changed; $root/target/install-library.said has all that was said" \
        "$(tail -n 1 "$room/err")"
    is 'not proved: nothing is there' '' "$(find "$room/unproved" 2>/dev/null)"
    rm -f target/install-library.said # what the other one said
    env -u CAPGAUZE_ARCHIVE -u CAPGAUZE_PROGRAMS PATH=/usr/bin:/bin ./install --prefix "$room/unproved" >"$room/out" 2>"$room/err"
    is 'no toolchain: status' 1 $?
    is 'no toolchain: error' 'install: the Rattle toolchain (rt) is not there' "$(cat "$room/err")"
}

is 'the version of the Rust crate' "$version" "$(sed -n 's/^version = "\(.*\)"$/\1/p' bindings/rust/Cargo.toml)"
install --prefix "$prefix"
is 'status' 0 "$status"
is 'said at the end' "installed Capgauze $version under $prefix: $(($(listed "$prefix" | wc -l) - 1)) files, listed in $prefix/share/capgauze/installed" \
    "$(sed -n 1p "$room/out")"
is 'all that is there is listed' "$(listed "$prefix")" "$(all_under "$prefix")"
is 'none of it names the folder that it was built in' '' "$(grep -rlF "$root" "$prefix")"
cp "$prefix/share/capgauze/installed" "$room/list"
try_programs
try_library
try_again
try_removal
try_refusals
try_failed_proof
closing
