# Read by the scripts here. `beside CRATE..` makes a temporary folder, which goes at the end, with copies of these crates and
# of those that they stand on, and a crate `measure` over them, whose src/ is still to be written. The folder is $work, the repository $top.
# Libraries that stand built are copied too: rt takes them where they are of the same text.
beside() {
    top=$(cd "$(dirname "$0")/.." && pwd)
    work=$(mktemp -d)
    trap 'rm -rf "$work"' EXIT
    mkdir -p "$work/crates/measure/src"
    names=$*
    fewer=
    while [ "$names" != "$fewer" ]; do
        fewer=$names
        # (a library of the kit has no line)
        names=$(for crate in $fewer; do echo "$crate"; sed -n "s/^$crate\( [^:]*\)\{0,1\}: //p" "$top/crates.txt"; done)
        names=$(echo "$names" | tr ' ' '\n' | sort -u | tr '\n' ' ')
    done
    for crate in $names; do
        if [ -d "$top/crates/$crate" ]; then
            mkdir "$work/crates/$crate"
            for part in src specs proofs; do
                if [ -d "$top/crates/$crate/$part" ]; then
                    cp -r "$top/crates/$crate/$part" "$work/crates/$crate/"
                fi
            done
            if [ -d "$top/crates/$crate/out/rlib" ]; then
                mkdir "$work/crates/$crate/out"
                cp -r "$top/crates/$crate/out/rlib" "$work/crates/$crate/out/"
            fi
            grep "^$crate[ :]" "$top/crates.txt" >> "$work/crates.txt"
        fi
    done
    echo "measure: $names" >> "$work/crates.txt"
}
