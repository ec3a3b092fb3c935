# What bench/run and bench/against share; they source it in the repository's root.
# shellcheck shell=bash
# Nothing is written into the repository but what rt makes in out/ of a crate: rt ci refuses a .rt or .antt file, as a
# worktree has them, in any other place than src/, specs/ and proofs/ of a crate.
out=${BENCH_OUT:-${TMPDIR:-/tmp}/bench-$(id -u)}
mkdir -p "$out"

need_valgrind() {
    command -v valgrind >/dev/null || { apt-get update && apt-get install -y valgrind; } >&2
}

# Proves and builds the program speed of the repository in a folder, as crates/speed/out/speed, and runs it once, on the
# crate's own stdin; what is said goes into a log.
build_speed() { # FOLDER LOG
    (cd "$1/crates/speed" && rt run <stdin) >"$2" 2>&1 || { cat "$2" >&2; return 1; }
}

compile() { # SOURCE PROGRAM
    rustc --edition 2021 -O -A dead_code "$1" -o "$2"
}

build_rust() { # NAME ..
    local name
    for name in "$@"; do
        compile "bench/rust/$name.rs" "$out/$name"
    done
}

# The machine and the tools, for the first line of what is printed.
machine() {
    local model
    model=$(sed -n 's/^model name[^:]*: //p' /proc/cpuinfo | head -n 1)
    echo "$(nproc) processors, $model; $(rustc --version); $(rt version | head -n 1)"
}
