# What scripts share: whether something is installed, the line for what is left out without it, and where files that are
# built without proofs stand.
#
# The script that reads this has set `root` and `self`.
# shellcheck shell=bash

has() {
    command -v "$1" >/dev/null
}

skip() {
    echo "${self:-$0}: skipped, since $1 is not installed: $2"
}

# Puts a file that is built without proofs where a package looks for it, unless a proved one is there.
# shellcheck disable=SC2154
place_unproved() {
    if [ -f "$2" ] && ! "$root/tools/jp_tools.py" is-unproved "$2"; then
        echo "$self: ${2#"$root/"} is the proved one, and stays"
        return
    fi
    # Whoever has the one before open keeps it.
    cp "$1" "$2.new"
    mv "$2.new" "$2"
}

# Makes a copy of the packages in the folder $1, for tests of what is built without proofs.
copy_packages() {
    mkdir -p "$1/bindings"
    cp -r "$root"/bindings/{compare,rows.py,rows.jsonl,go,node,python} "$1/bindings"
    ln -s "$root"/{crates,hostile,tools,LICENSE-APACHE,LICENSE-MIT} "$1"
}

# The class path of Jackson for Java: the one that JP_JACKSON names, or that of Debian's package, or none.
jackson_path() {
    local jars=/usr/share/java/jackson
    if [ -n "${JP_JACKSON-}" ]; then
        echo "$JP_JACKSON"
    elif [ -f $jars-databind.jar ]; then
        echo $jars-databind.jar:$jars-core.jar:$jars-annotations.jar
    fi
}
