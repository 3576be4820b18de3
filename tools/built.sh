# Whether the program is built from the sources that stand here. Read by ./dcr and .ci/run, which set top.
program=$top/crates/dcr/out/dcr
# What stands in the record beside the program, which says from what it was built: a checksum of the sources, and one of
# the program. Neither a clock nor a copy can mislead these.
record=$program.built

# A checksum of the files that the program is built from, but for what an editor leaves beside them.
sources() (
    cd -- "$top" && find crates crates.txt -name out -prune -o -type f \( -name '*.rt' -o -name '*.antt' -o -name crates.txt \) -print0 |
        LC_ALL=C sort -z | xargs -0 sha256sum | sha256sum
)

is_built() {
    [ -x "$program" ] && [ -f "$record" ] &&
        [ "$(sources && sha256sum <"$program")" = "$(cat -- "$record")" ]
}

# Notes that the program was built from the sources with this checksum.
note_built() {
    { echo "$1" && sha256sum <"$program"; } >"$record.new" && mv -- "$record.new" "$record"
}
