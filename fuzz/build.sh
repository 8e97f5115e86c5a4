# Sourced by run, in the repository's folder: what builds the fuzzer.

original=${GRAIN_ORIGINAL:-../shared/docs/src}
if [ ! -f "$original/grain/pos/varint.rs.txt" ]; then
    echo "fuzz/run: the Rust original is not in $original (GRAIN_ORIGINAL names its folder): skipped"
    exit 0
fi
GRAIN_ORIGINAL=$(cd "$original" && pwd)
if [ ! -f target/staticlib/libgrain.a ]; then
    echo 'fuzz/run: there is no target/staticlib/libgrain.a: rust/archive grain makes it' >&2
    exit 1
fi
FUZZER_RUNTIME=$(clang --print-file-name=libclang_rt.fuzzer-x86_64.a)
if [ ! -f "$FUZZER_RUNTIME" ]; then
    echo 'fuzz/run: clang has no libFuzzer' >&2
    exit 1
fi
export GRAIN_ORIGINAL FUZZER_RUNTIME

# Links the fuzzer with an archive into FOLDER/fuzz, with the list of the archive's blocks beside it.
build_fuzzer() { # ARCHIVE FOLDER
    local instrument='-Cpasses=sancov-module -Cllvm-args=-sanitizer-coverage-level=4
        -Cllvm-args=-sanitizer-coverage-inline-8bit-counters -Cllvm-args=-sanitizer-coverage-pc-table
        -Cllvm-args=-sanitizer-coverage-trace-compares'
    mkdir -p "$2"
    cc -std=c11 -Wall -Wextra -Werror -O1 -c fuzz/blocks.c -o "$2/blocks.o"
    # With a target named, cargo leaves the build scripts without the instrumentation.
    (cd fuzz && GRAIN_ARCHIVE=$1 BLOCKS=$2/blocks.o RUSTFLAGS=$(echo $instrument) \
        cargo build --offline --release --quiet --target x86_64-unknown-linux-gnu)
    cp fuzz/target/x86_64-unknown-linux-gnu/release/fuzz "$2/fuzz"
    objdump -d --no-show-raw-insn "$2/fuzz" | awk -f fuzz/blocks.awk | sort -u >"$2/blocks"
    export GRAIN_BLOCKS=$2/blocks GRAIN_UNREACHED=$2/unreached
}

# Writes the cases of vectors/ as files.
seeds() { # FOLDER
    mkdir -p "$1"
    python3 - vectors/cases.txt "$1" <<'CODE'
import pathlib, sys
lines = pathlib.Path(sys.argv[1]).read_text().split('\n')[1::2]
for k, line in enumerate(lines):
    pathlib.Path(sys.argv[2], f'case-{k}').write_bytes(bytes.fromhex(line))
CODE
}
