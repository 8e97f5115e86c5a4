# Sourced by run, in the repository's folder: faults on purpose, each of which must be found.

# A copy of the archive with the faults behind its reader and its writer.
folder=$PWD/target/fuzz/faulty
archive=$folder/libgrain.a
mkdir -p "$folder"
objcopy --redefine-sym grain_read=proved_read --redefine-sym grain_write=proved_write target/staticlib/libgrain.a "$archive"
cc -std=c11 -Wall -Wextra -Werror -O1 -Iinclude -c fuzz/faults.c -o "$folder/faults.o"
ar r "$archive" "$folder/faults.o"

build_fuzzer "$archive" "$folder"
(cd rust && GRAIN_ARCHIVE=$archive CARGO_TARGET_DIR=$folder/cargo cargo build --offline --release --quiet --bin beside)
rm -rf "$folder/seeds"
seeds "$folder/seeds"

# What libFuzzer keeps goes to a folder of its own, so that each run begins with the seeds alone.
fuzzed() {
    rm -rf "$folder/kept"
    mkdir "$folder/kept"
    "$folder/fuzz" -max_total_time=60 -max_len=2048 -artifact_prefix="$folder/" "$@" "$folder/kept" "$folder/seeds" \
        >"$folder/said" 2>&1
}
compared() { "$folder/cargo/release/beside" compare artifacts >"$folder/said" 2>&1; }

fail() { # WHY
    cat "$folder/said" >&2
    echo "fuzz/run: $1" >&2
    exit 1
}

# Without a fault the two must be content, else what follows says nothing.
export GRAIN_FAULT=0
fuzzed -runs=0 || fail 'the fuzzer fails without a fault'
compared || fail 'the comparison fails without a fault'
# One fault shows in none of the seeds, so that it takes the fuzzing to find it.
GRAIN_FAULT=11 fuzzed -runs=0 || fail 'the seeds show fault 11'
for GRAIN_FAULT in 1 2 3 4 5 6 7 8 9 10 11 12 13 14 15 16 17; do
    export GRAIN_FAULT
    rm -f "$folder"/crash-*
    if fuzzed || ! ls "$folder"/crash-* >/dev/null 2>&1; then fail "fault $GRAIN_FAULT is not found by the fuzzer"; fi
    echo "fault $GRAIN_FAULT: the fuzzer finds $(grep -m 1 -E 'ERROR: libFuzzer|same answer|rows of|words of|zeros|three words|no room|refusal leaves|plain reading' "$folder/said")"
    # What is touched outside of the lent memory only the fuzzer's closed pages show.
    case $GRAIN_FAULT in 9 | 10 | 14) continue ;; esac
    if compared; then fail "fault $GRAIN_FAULT is not found by the comparison"; fi
    echo "fault $GRAIN_FAULT: the comparison finds $(grep -m 1 'the original has' "$folder/said" | sed 's/ of (.*//')"
done
echo 'every fault is found'
