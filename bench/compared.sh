# What the scripts that compare and time have in common: both sides built for release. After tools/script.sh.

cc=${CC:-cc}
made=$root/target/bench
programs=$made/reference/release

build_both() {
    "$root/tools/library"
    mkdir -p "$made"
    cargo build --release --quiet --manifest-path "$root/reference/Cargo.toml" --target-dir "$made/reference"
    cargo build --release --quiet --manifest-path "$root/bench/library/Cargo.toml" --target-dir "$made/library"
}

compiled() { # PROGRAM..
    for program; do
        "$cc" -std=c99 -Wall -Wextra -O2 -I"$root/include" -I"$root/bench" -o "$made/$program" "$root/bench/$program.c" \
            "$root/target/librabenteig.a" "$made/library/release/libreference_library.a" -lpthread -ldl -lm
    done
}

# Streams by seed, from 1 to the last, in a folder that goes with the script.
streams_by_seed() { # LAST EVENTS
    seed=1
    while [ "$seed" -le "$1" ]; do
        "$programs/streams" "$seed" "$2" > "$work/$seed"
        seed=$((seed + 1))
    done
}

work=$(mktemp -d)
trap 'rm -r "$work"' EXIT
