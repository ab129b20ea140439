# Runs the program of a crate in the place of the script that reads this: the one that is proved, or else the one that is
# built without proofs, which is built where neither is there. The script has set `root` and `crate`.
# Whether sources are newer is not asked here: bin/build and make ask that.
# shellcheck shell=sh disable=SC2154

find_program() {
    program=$root/crates/$crate/out/$crate
    [ -x "$program" ] || program=$root/out/unproved/$crate
    [ -x "$program" ]
}

# 125 is none of the program's statuses.
find_program || { "$root/bin/build" --unproved "$crate" </dev/null >&2 && find_program; } || exit 125
exec "$program" "$@"
