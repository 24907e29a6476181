# What `run` and `before` share. Sourced at the repository's top; programs go to the folder $out.
bench=$(realpath "$(dirname "${BASH_SOURCE[0]}")")

# The archives of the tree that one stands in.
build_archives() {
    (cd crates/console && rt lib) >&2 && (cd crates/probe && rt lib) >&2
}

# bring_modules CRATE: modules of the distance's proofs that the crate's files name go to it, and those that these name.
bring_modules() {
    local crate=$1 name
    for name in $(grep -arhoP 'Rattle\.distance\.proofs\.\K[A-Z][^. ]*' "$crate"); do
        [ ! -f "$crate/proofs/$name.antt" ] || continue
        cp "crates/distance/proofs/$name.antt" "$crate/proofs" || return
        echo "pub mod $name" >>"$crate/proofs/Lib.antt"
        bring_modules "$crate" || return
    done
}

# The archive of the leaf, which counts differing bits, in the tree that one stands in: a repository of its own under target/leaf,
# with the tree's code and proofs and the C entry of the present bench/leaf.rt.in. That is no .rt file, since `rt ci` refuses one
# outside the listed crates: nothing there would prove it.
build_leaf() {
    local top=target/leaf crate=target/leaf/crates/leaf
    rm -rf "$top/crates" &&
        mkdir -p "$top/crates/iscc" "$crate/src" "$crate/proofs" &&
        printf '%s\n' 'iscc:' 'leaf staticlib: iscc' >"$top/crates.txt" &&
        cp -r crates/iscc/{src,specs,proofs} "$top/crates/iscc" &&
        cp "$bench/leaf.rt.in" "$crate/src/lib.rt" &&
        cp crates/distance/src/bits.rt "$crate/src" &&
        cp -r crates/distance/proofs/bits "$crate/proofs" &&
        bring_modules "$crate" &&
        find "$crate" -type f -exec sed -i 's/Rattle\.distance\./Rattle.leaf./g' {} + &&
        (cd "$crate" && rt lib >&2)
}

# The C loop as two objects: for the same x86-64 as the proved code, with the function of gcc's library that counts a word there;
# and with the processor's own count.
build_loops() {
    gcc -O3 -r -nostdlib -o "$out/differing.o" bench/plain/differing.c -lgcc &&
        gcc -O3 -mpopcnt -Dc_differing=c_differing_popcnt -c -o "$out/differing_popcnt.o" bench/plain/differing.c
}

release() {
    rustc --edition 2021 -C opt-level=3 -C codegen-units=1 -D warnings "$@" --out-dir "$out"
}

# build_program NAME SOURCE OBJECT..: a program over plain Rust and the archives or objects named.
build_program() {
    local name=$1 source=$2 words=() object
    shift 2
    for object in "$@"; do words+=(-C "link-arg=$object"); done
    release --crate-type rlib --crate-name plain bench/plain/lib.rs &&
        release --crate-name "$name" --extern plain -L "$out" "${words[@]}" "$source"
}

# usage SCRIPT: the comment at the script's head.
usage() {
    sed -n '2,${/^#/!q; s/^# \{0,1\}//p}' "$1"
}

# refuse SCRIPT WORDS: what is wrong with the arguments.
refuse() {
    echo "$1: $2; $1 --help says how it is used" >&2
    exit 2
}

# Hundredths of a second that the processors have worked for others than this script and what it ran.
others() {
    local all own
    read -ra all </proc/stat
    read -ra own </proc/$$/stat
    echo $((all[1] + all[2] + all[3] + all[6] + all[7] + all[8] - own[13] - own[14] - own[15] - own[16]))
}

# Millionths of a second since some moment.
now() {
    echo "${EPOCHREALTIME/[.,]/}"
}

# measured COMMAND..: its output, under lines that say on what machine, and how busy that was with other work.
measured() {
    local model start busy
    model=$(sed -n 's/^model name[[:space:]]*: //p;T;q' /proc/cpuinfo)
    start=$(now)
    busy=$(others)
    "$@" >"$out/measured"
    busy=$((($(others) - busy) * 1000000 / ($(now) - start)))
    echo "Taken on ${model:-a processor without a name}, $(nproc) cores."
    echo "Other programs took $busy % of a core meanwhile."
    cat "$out/measured"
}
