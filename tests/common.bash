# What the scripts of this folder share; read by `source`. Needs bash, cargo and rt.

root=$(cd "$(dirname "${BASH_SOURCE[0]}")/.." && pwd)
differ=$root/oracle/target/release/differ
calls=$root/oracle/target/release/calls

# Builds the programs of oracle/.
build_oracle() {
    cargo build --release --quiet --manifest-path "$root/oracle/Cargo.toml" --target-dir "$root/oracle/target"
}

# The crates that NAME stands on by crates.txt, itself included, one a line.
crates_under() { # NAME
    awk -F: -v name="$1" '
        /^[a-z_]+( staticlib)?:/ { crate = $1; sub(/ .*/, "", crate); below[crate] = $2 }
        function reach(crate,    words, count, at) {
            if (!(crate in below) || crate in reached) return
            reached[crate]
            print crate
            count = split(below[crate], words, " ")
            for (at = 1; at <= count; at++) reach(words[at])
        }
        END { reach(name) }' "$root/crates.txt"
}

# Has rt prove a crate, what it stands on first, and build it (`rt run` in the crate's folder, of a program, which it then runs on an
# empty input; `rt lib`, of a library), with the flags given. Each crate that has changed gets a line on the error output when it is
# proved: how many of how many are, its name, the seconds. Where that fails, all that rt said follows.
prove() { # WORD NAME [FLAG..]
    local log=$root/target/$2.log all line crate='' began=$SECONDS under status
    local -A proved=()
    all=$(crates_under "$2" | wc -l)
    mkdir -p "$root/target"
    echo "proving and building $2 over $((all - 1)) other crates, some minutes from nothing .." >&2
    (cd "$root/crates/$2" && rt "$1" "${@:3}" 2>&1 </dev/null) | tee "$log" | while IFS= read -r line; do
        if [[ $line =~ ^crate\ ([a-z_]+):\  ]]; then
            crate=${BASH_REMATCH[1]}
        elif [[ -n $crate && $line == logic=proved\ * ]]; then
            # What a crate stands on is proved before it, and has no line where nothing in it has changed.
            while read -r under; do proved[$under]=; done < <(crates_under "$crate")
            echo "proved ${#proved[@]} of $all: $crate, $((SECONDS - began)) s" >&2
            crate='' began=$SECONDS
        fi
    done
    status=${PIPESTATUS[0]}
    [[ $status == 0 ]] || cat "$log" >&2
    return "$status"
}

# Is a file there, and no older than what the crates are made of?
is_current() { # FILE
    [[ -e $1 && -z $(find "$root"/crates/*/{src,specs,proofs} "$root/crates.txt" -newer "$1" -print -quit 2>/dev/null) ]]
}

# Puts the words that run an x86-64 program with the kit's loader and C library into `program`, and the kit's toolchain into `kit`.
run_by_kit() { # PROGRAM
    local guide
    guide=$(rt doc </dev/null)
    kit=${guide%/*}/toolchain
    program=("$kit/lib/ld-linux-x86-64.so.2" --library-path "$kit/lib" "$1")
}

# Sees to it that the program NAME is built and no older than the crates, and puts the words that run it into `program`.
build_program() { # NAME
    local built=$root/crates/$1/out/$1
    if ! is_current "$built"; then
        mkdir -p "$root/target" && : >"$root/target/began"
        prove run "$1" || return 1
        # What has not changed is not built again, and need not be asked about again.
        touch -r "$root/target/began" "$built"
    fi
    program=("$built")
    # A processor that runs x86-64 programs by an emulator has no loader and C library of its own for them.
    [[ $(uname -m) == x86_64 ]] || run_by_kit "$built"
}

# Is the processor one that the static library is for? Says why not.
links_library() {
    [[ $(uname -m) == x86_64 ]] || { echo "the static library links into x86-64 programs only: $1 is left out here"; return 1; }
}

# Sees to it that the static library is built and no older than the crates: for every x86-64 processor, as README has it, where the kit's
# own choice is a later one (x86-64-v2).
archive=$root/crates/peraduksi/out/libperaduksi.a
build_library() {
    if ! is_current "$archive"; then
        mkdir -p "$root/target" && : >"$root/target/began"
        prove lib peraduksi --cpu x86-64 || return 1
        touch -r "$root/target/began" "$archive"
    fi
}

# Builds the programs of compare/, which link the library, to compare/target/PROFILE.
build_compare() { # PROFILE
    build_library
    cargo build --profile "$1" --quiet --manifest-path "$root/compare/Cargo.toml" --target-dir "$root/compare/target"
}

# Builds compare/driver for x86-64 with the kit's own compiler, linker and C library, and puts the words that run it into `program`:
# for a processor on which the programs of compare/ cannot be linked. Says why not.
build_driver() {
    local built=$root/target/driver
    run_by_kit "$built"
    if [[ ! -x $kit/bin/clang || ! -x $kit/bin/ld.lld ]] || ! command -v cc >/dev/null; then
        echo "no compiler for x86-64 in the kit: $1 is left out here"
        return 1
    fi
    build_library || return 2
    "$kit/bin/clang" --target=x86_64-linux-gnu -std=c11 -Wall -Wextra -Werror -O2 -fPIC -ffreestanding -nostdinc \
        -isystem "$(cc -print-file-name=include)" -I"$root/include" -c "$root/compare/driver/calls.c" -o "$built.o" &&
        "$kit/bin/ld.lld" -pie --dynamic-linker "$kit/lib/ld-linux-x86-64.so.2" -o "$built" "$kit/lib/Scrt1.o" "$kit/lib/crti.o" \
            "$kit/lib/crtbeginS.o" "$built.o" "$archive" "$kit/lib/libc.so.6" "$kit/lib/libc_nonshared.a" \
            "$kit/lib/libgcc.a" "$kit/lib/crtendS.o" "$kit/lib/crtn.o" || return 2
}
