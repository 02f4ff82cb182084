# Sourced by a test, at the repository's top: a repository in a temporary folder, $copy, which has these crates and those that the test
# adds. rt refuses links, so they are copied, without what rt made of them: it takes that from here where the text is the same.
copy=$(mktemp -d)
said=$copy/said
trap 'rm -rf "$copy"' EXIT
cp crates.txt "$copy/"
for crate in crates/*; do
    mkdir -p "$copy/$crate"
    for part in src specs proofs; do
        [ ! -d "$crate/$part" ] || cp -r "$crate/$part" "$copy/$crate/"
    done
done

# quietly COMMAND..: what it says goes to $said, and is shown where it fails
quietly() {
    "$@" >"$said" 2>&1 || { cat "$said" >&2; return 1; }
}
# within CRATE COMMAND..: in the copy's crate
within() {
    (cd "$copy/crates/$1" && "${@:2}")
}

# built CRATE..: proves and builds these libraries here, where they stay
built() {
    local crate
    for crate in "$@"; do
        (cd "crates/$crate" && quietly rt lib)
    done
}
# add NAME DEPS FILE ROOT: a crate with this file as its src/ROOT; NAME may have 'staticlib' after it
add() {
    mkdir -p "$copy/crates/${1%% *}/src"
    cp "$3" "$copy/crates/${1%% *}/src/$4"
    echo "$1: $2" >>"$copy/crates.txt"
}

# compiled NAME: proves the program; $copy/NAME-llvm is it as LLVM compiles it, $copy/NAME-rattle as Rattle's own compiler does
compiled() {
    local compiler
    for compiler in llvm rattle; do
        # rt runs it too, here on nothing
        quietly within "$1" rt run --backend "$compiler" </dev/null
        cp "$copy/crates/$1/out/$1" "$copy/$1-$compiler"
    done
}
# tried NAME FLAGS..: runs the program with checks and, where it can, by the interpreter, which has to write the same
tried() {
    within "$1" rt try "${@:2}" 2>"$said" || { cat "$said" >&2; return 1; }
}
# interpreted: the last program tried ran by the interpreter too
interpreted() {
    grep -q '^interpreter: ended status=0' "$said" || { cat "$said" >&2; return 1; }
}
# gives FOLDER COMMAND..: on the folder's stdin it writes the folder's stdout
gives() {
    "${@:2}" <"$1/stdin" | cmp - "$1/stdout"
}
