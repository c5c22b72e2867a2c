# Sourced: what is proved for a user, who sees that it moves. `root` is the repository's folder.

# What tools/build.sh says goes to a file; its line for each crate goes to the standard error too, as it comes. Status 0 if all was proved and built.
prove() { # FILE WHAT..
    local said=$1
    shift
    "$root/tools/build.sh" "$@" </dev/null 2>&1 | tee "$said" | grep --line-buffered '^rt: [a-z0-9_]* \(proved\|failed\)' >&2
    [ "${PIPESTATUS[0]}" -eq 0 ]
}
