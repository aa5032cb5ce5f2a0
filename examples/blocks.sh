# What parallel.sh and split.sh share: the program, the inputs, and the comparison with one run. Each of the two has
#
#   blocks FILE HOW     prints what mc33 prints for the blocks of FILE, cut in this way, one after the other
#   words HOW           names the way
cd "$(dirname "${BASH_SOURCE[0]}")/.."
out=target/parallel
mkdir -p "$out"
bin/program.sh > "$out/check.log" 2>&1 || { cat "$out/check.log"; exit 1; }

# in_blocks FILE HOW: the blocks' answers, joined. The names line is answered by itself first, for an input that has
# no other. Of what mc33 says on standard error only that a line of a block was refused is passed over.
in_blocks() {
    { head -n 1 "$1" | target/bin/mc33; blocks "$1" "$2"; } 2> "$out/words" | awk -f examples/join.awk
    ! grep -v '^mc33: refused at line ' "$out/words" >&2
}

# tried FILE HOW
tried() {
    target/bin/mc33 < "$1" > "$out/one" 2> "$out/words"
    in_blocks "$1" "$2" > "$out/joined"
    cmp "$out/one" "$out/joined"
    echo "$(basename "$1"): $(wc -l < "$1") lines in $(words "$2"), the same as one run;" \
        "last line: $(tail -n 1 "$out/one")"
}

sample=crates/mc33/stdin
names() { head -n 1 "$sample"; }
cubes() { sed -n '2,5201p' "$sample"; }
{ names; for _ in $(seq 100); do cubes; done; } > "$out/cubes"
{ cat "$out/cubes"; printf '3 0'; } > "$out/unended"
sed '300001s/.*/15 0 &/; 400001s/^/x/' "$out/cubes" > "$out/malformed"
sed '300001s/^[0-9]* /15 /; 400001s/^[0-9]* /15 /' "$out/cubes" > "$out/refused"
sed '1s/case/Case/' "$out/cubes" > "$out/other_names"
names > "$out/names_alone"
: > "$out/empty"

# all_tried HOW OTHER..: every input cut in the first way, and two of them in the others.
all_tried() {
    local input how
    for input in cubes unended malformed refused other_names names_alone empty; do
        tried "$out/$input" "$1"
    done
    for how in "${@:2}"; do
        tried "$out/cubes" "$how"
        tried "$out/refused" "$how"
    done
    echo "Of the file with two refused cubes in $(words "$1") their own runs printed," \
        "with the line's number in its block:"
    blocks "$out/refused" "$1" 2> "$out/words" | grep refused
    echo "and joined it ends at the first, with the line's number in the file:"
    in_blocks "$out/refused" "$1" | tail -n 1
}
