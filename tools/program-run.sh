# Sourced, with `name` set, by tools/program.sh and by the programs that ./install puts in place. Who sources it has the functions `help` and `version`.

# A standard stream that is closed would be handed to the next file that is opened. It is opened the wrong way round, so that it fails as before.
{ true 9<&0; } 2>/dev/null || exec 0>/dev/null
{ true 9>&1; } 2>/dev/null || exec 1</dev/null
{ true 9>&2; } 2>/dev/null || exec 2>/dev/null

fail() { printf '%s: %s\n' "$name" "$*" >&2; exit 1; }

# What is answered without the program.
answer() { # ARGUMENT..
    local word
    for word in "$@"; do
        case $word in
        --help) help "$name"; exit ;;
        --version) version "$name"; exit ;;
        --) break ;;
        esac
    done
}

is_utf8() { # WORD
    local LC_ALL=C
    [[ $1 != *[!$'\001'-$'\177']* ]] || printf %s "$1" | iconv -f UTF-8 -t UTF-16 >/dev/null 2>&1
}

# A program opens a file by a name that is UTF-8. A file with any other name is opened here, and the program is given its descriptor.
name_files() { # ARGUMENT.., into the array `named`
    local word fd said value='' only_files=''
    named=()
    for word in "$@"; do
        if [ -n "$value" ]; then
            value=
        elif [ -n "$only_files" ] || [[ $word != -* ]]; then
            if ! is_utf8 "$word"; then
                if ! { command exec {fd}<"$word"; } 2>/dev/null; then
                    said=$(LC_ALL=C; { true <"$word"; } 2>&1)
                    [ -n "$said" ] || said='Too many open files'
                    fail "$word: ${said##*: }"
                fi
                [ ! -p "$word" ] || exec {fd}< <(exec cat <&"$fd") # a FIFO that is opened again could wait for another writer
                word=/dev/fd/$fd
            fi
        else
            case $word in
            --) only_files=yes ;;
            --edition | --least) value=yes ;;
            esac
        fi
        named+=("$word")
    done
}

# Runs a program and ends with its status. The language's runtime ignores SIGPIPE, which leaves two things to do here. Where nobody reads its output any more,
# a program ends with that signal's status, 141; it is made 1 where the caller ignores the signal. What a program says on standard error is its last act, so
# it is collected and written here: a pipe that nobody reads then ends the run with 141, and where the signal is ignored it is no failure. The caller's
# descriptor 3 is closed for the program, which may write its status there (--status).
run() { # PROGRAM ARGUMENT..
    local ended named said
    name_files "${@:2}"
    { said=$("$1" "${named[@]}" 2>&1 >&4 3>&- 4>&-; printf '\n%s' "$?"); } 4>&1
    ended=${said##*$'\n'} said=${said%$'\n'*}
    if [ -n "$said" ]; then
        (printf %s "$said") >&2 2>/dev/null
        [ "$?" -ne 141 ] || exit 141
    fi
    [ "$ended" -ne 141 ] || [ -z "$(trap -p PIPE)" ] || ended=1
    exit "$ended"
}
