# Sourced by tools/program.sh and ./install: what the programs say of themselves. `root` is the repository's folder.

# The numbers of refusals with their names: the one list is `wire::number_of`, whose numbers are proved.
refusals() {
    sed -n '/^pub fn number_of/,/^}/ s/^ *Refusal::\([A-Za-z]*\) => \([0-9]*\),$/\2 \1/p' "$root/crates/wire/src/lib.rt"
}

what_dump() {
    cat <<'END'
Prints the fields of each frame, or why it has none. A line is a frame in hex.
  frame F tag type value   type: 0 a number, 1 bytes, 2 four bytes, 3 eight
  frame OK fields bytes    accepted
  frame NO number place failing bytes
                           refused: the key's place, where the read that failed
                           began, and the bytes of a varint it looked at
  frame HEX, frame LONG    not hexadecimal; more than 4096 characters
Example:
  $ echo 0401 | dump
  1 F 1 0 0000000000000001
  1 OK 1 2
END
}

what_soundings() {
    cat <<'END'
Prints a table (CSV). A line is a frame in hex, and has a row for each level of
its sounding, or one row: with no level if it has none, with the name of the
refusal if it is refused, HEX if it is not hexadecimal, LONG if it has more than
4096 characters. A value that is missing is an empty cell. The columns: frame,
station, launch, level, pressure_pa, temperature_c, dewpoint_depression_c, in
the second edition wind_speed_ms, wind_direction_deg and grade, refusal.
Example:
  $ soundings examples/rows.hex | tail -n 2
  3,,,,,,,Repeated
  4,,,,,,,HEX
END
}

# the options that only some programs have
options_dump() { :; }

options_soundings() {
    cat <<'END'
  --edition 1|2    reads by the first edition, as without it, or by the second
  --least GRADE    with --edition 2: refuses soundings below canonical,
                   extensions or any; any, as without it, refuses none
END
}

help() {
    case $1 in
    dump) printf 'usage: dump [--count] [FILE..]\n' ;;
    soundings) printf 'usage: soundings [--count] [--edition 1|2] [--least GRADE] [FILE..]\n' ;;
    esac
    "what_$1"
    cat <<'END'
Files are read one behind the other; none, or -, is the standard input.
END
    "options_$1"
    cat <<'END'
  --count    says at the end on standard error how many frames there were
  --version  prints the version and the toolchain;  --help  prints this
  --         all that follows are names of files
Refusals:
END
    refusals | awk '
        { t = $1 " " $2; if (NR > 1) line = line "," }
        length(line) + length(t) > 74 { print "  " line; line = "" }
        { line = line (line == "" ? "" : " ") t }
        END { print "  " line }'
    echo 'Exit status: 0 if all was read and written, frames refused or not; 1 if not,'
    echo 'and standard error says why; 2 for an unknown option.'
}

version() {
    printf '%s (capgauze) %s\n' "$1" "$(sed -n 's/^#define CAPGAUZE_VERSION "\(.*\)"$/\1/p' "$root/bindings/c/capgauze.h")"
    printf 'toolchain: %s\n' "$(rt version 2>/dev/null || echo none)"
}
