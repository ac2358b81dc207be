#!/usr/bin/env bash
# The daily jobs: ./do JOB [WORDS]. CONTRIBUTING.md says when to use which. What a job's first line says behind `#:` is
# what `./do help` prints of it.
set -eu
cd -- "$(dirname -- "${BASH_SOURCE[0]}")"
export PATH="$PATH:${HOME:-/root}/.cargo/bin"
library=target/staticlib/libcabi.a

# cargo in a folder with a package of its own; nothing is fetched.
cargo_in() { # FOLDER VERB [WORDS]
    local folder=$1 verb=$2
    shift 2
    (cd -- "$folder" && cargo "$verb" --release --offline "$@")
}

# Whether a file is missing, or older than some code that it is made of.
stale() { # FILE
    [ ! -e "$1" ] || [ -n "$(find crates.txt crates/*/src -newer "$1" -print -quit)" ]
}

need_library() {
    [ -z "${APPTBOOK_LIB:-}" ] && stale "$library" || return 0
    job_library
}

# The programs: crates with a main. `rt run` builds one, and runs it on nothing.
need_programs() {
    [ -z "${APPTBOOK_BIN:-}" ] || return 0
    local main name
    for main in crates/*/src/main.rt; do
        name=${main#crates/} name=${name%%/*}
        stale "target/bin/$name" || continue
        job_program "$name"
    done
}

job_prove() { #: prove CRATE [WORDS]            one crate, by `rt check` with WORDS
    [ $# -gt 0 ] || { job_help; exit 2; }
    local crate=$1
    shift
    (cd -- "crates/$crate" && rt check "$@")
}

all_tests() {
    need_library
    need_programs
    cargo_in bindings/rust test --no-fail-fast
    cargo_in reference test --no-fail-fast
}

job_test() { #: test [TOPIC [WORDS]]           the tests against the reference, or those of one file of reference/tests
    [ $# -gt 0 ] || { all_tests; return; }
    local topic=$1
    shift
    need_library
    need_programs
    cargo_in reference test --test "$topic" "$@"
}

# The layout of every cargo package.
formatted() {
    local package
    for package in */Cargo.toml bindings/*/Cargo.toml; do
        [ ! -e "$package" ] || cargo fmt --check --manifest-path "$package"
    done
}

job_quick() { #: quick                          proofs of what changed, and all tests; no edits: before a commit
    formatted
    cargo_in tools test
    rt all check
    all_tests
}

job_edits() { #: edits [CRATE..]                the edits of mutations, each to be refused; all, or those of some crates
    bash mutations/run "$@"
}

job_gate() { #: gate                           everything from nothing, edits too, some 30 minutes: before a merge
    bash .ci/run
}

job_library() { #: library                        target/staticlib/libcabi.a, for C and Rust to link
    (cd crates/cabi && rt lib)
    mkdir -p target/staticlib
    cp crates/cabi/out/libcabi.a "$library"
}

job_program() { #: program NAME                   target/bin/NAME, one of the programs
    [ $# -gt 0 ] || { job_help; exit 2; }
    # the status is the program's own: whether it was built is seen by its file
    (cd -- "crates/$1" && mkdir -p out && rm -f "out/$1" && rt run </dev/null >out/run.log 2>&1) || true
    [ -x "crates/$1/out/$1" ] || { cat "crates/$1/out/run.log" >&2; exit 1; }
    mkdir -p target/bin
    cp "crates/$1/out/$1" "target/bin/$1"
}

job_bench() { #: bench [--markdown]             what each call costs; with the word, as docs/measured/bench.md
    need_library
    cargo_in reference run --quiet --bin bench -- "$@"
}

job_growth() { #: growth [FILE]                  how costs grow, as docs/measured/growth.md, and its picture
    need_library
    cargo_in reference run --quiet --bin growth -- "$@"
}

job_fuzz() { #: fuzz SECONDS [SEED [calls]]    hostile inputs, a long run
    need_library
    need_programs
    cargo_in reference run --quiet --bin fuzz -- "$@"
}

job_graph() { #: graph [--check]                docs/imports.svg, after a change of crates.txt or of a `use` line
    cargo_in tools run --quiet --bin imports -- "$@"
}

job_definitions() { #: definitions [--check]          docs/DEFINITIONS.md, after a change in specs
    cargo_in tools run --quiet --bin definitions -- "$@"
}

job_help() { #: help                           this list
    sed -n 's|^job_[a-z]*() { #: |./do |p' ./do
}

job=${1:-help}
[ $# -eq 0 ] || shift
if ! declare -F "job_$job" >/dev/null; then
    echo "do: there is no job '$job'" >&2
    job_help >&2
    exit 2
fi
"job_$job" "$@"
