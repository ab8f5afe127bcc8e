# What scripts in bash share. $top is the repository's top folder.
top=$(cd "$(dirname "$(readlink -f "${BASH_SOURCE[0]}")")/.." && pwd) || exit 2

# Ends the script with a message, and a status, which is 2 if none is given.
stop() {
    echo "bin/${0##*/}: $1" >&2
    exit "${2-2}"
}

# Prints crates and all that they depend on, lowest first: crates.txt has each crate after those.
below() {
    for crate in "$@"; do
        grep -q "^$crate:" "$top/crates.txt" || stop "crates.txt has no crate $crate"
    done
    tac "$top/crates.txt" |
        awk -F: -v wanted=" $* " 'NF > 1 && index(wanted, " " $1 " ") { wanted = wanted $2 " "; print $1 }' | tac
}
