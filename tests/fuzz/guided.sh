#!/bin/sh
# A guided run for as long as wanted, outside the gate: libFuzzer over an engine that is itself instrumented.
#
#   tests/fuzz/guided.sh [SECONDS]     default 1200; corpus, log and what is found stay in target/fuzz/guided
#
# The engine is compiled once more by `rt lib`, in a copy of the crates, with a kit of links to the real one in which clang is a script
# (instrument.sh): it adds edge coverage and the address sanitizer to the proved module, and compiles the module a second time
# without optimisation, to tell by function what was reached (cover.c). target/staticlib stays as it is.
set -eu
cd "$(dirname "$0")/../.."
root=$PWD
seconds=${1:-1200}
sources=$root/tests/fuzz
out=$root/target/fuzz/guided
kit=$(dirname "$(rt doc)")
work=$(mktemp -d)
trap 'rm -rf "$work"' EXIT
mkdir -p "$out/objects" "$out/corpus" "$out/found"
runtime=$(clang-14 -print-file-name=libclang_rt.fuzzer-x86_64.a 2>/dev/null || true)
[ -f "$runtime" ] || { apt-get update -qq && apt-get install -y -qq clang-14 libclang-rt-14-dev; }

# links FROM TO EXCEPT..: a folder of links to all that is in another, but some
links() {
    from=$1 to=$2
    mkdir -p "$to"
    ln -sfn "$from"/* "$to"
    shift 2
    for except; do rm -f "$to/$except"; done
}

# the kit of links; rt finds its kit by where it stands itself, so it is copied
links "$kit" "$work/kit" bin toolchain
links "$kit/bin" "$work/kit/bin" rt rtlib.py
cp "$kit/bin/rt" "$kit/bin/rtlib.py" "$work/kit/bin"
links "$kit/toolchain" "$work/kit/toolchain" bin
links "$kit/toolchain/bin" "$work/kit/toolchain/bin" clang
sed -e "s|@CLANG@|$kit/toolchain/bin/clang|" -e "s|@PLAIN@|$out/plain.o|" "$sources/instrument.sh" >"$work/kit/toolchain/bin/clang"
chmod +x "$work/kit/toolchain/bin/clang"

# a copy of the crates, so that the archive of the gate is not replaced; what is proved is not proved again
tools/engine.sh
mkdir "$work/root"
cp -a crates crates.txt "$work/root"
(cd "$work/root/crates/pdic" && rm -f out/libpdic.a && "$work/kit/bin/rt" lib) >"$out/engine.log" 2>&1
engine=$out/libpdic.a
cp "$work/root/crates/pdic/out/libpdic.a" "$engine"
nm "$engine" | grep -q __sanitizer_cov_8bit_counters_init || { echo "the engine is not instrumented"; exit 1; }

# the fuzzer (its harness is not instrumented, so that coverage is the engine's), and the driver over the plain module
for part in guided harness facts decode reader lent guard mutate; do
    clang-14 -std=c11 -O1 -g -Wall -Wextra -Werror -fsanitize=address,undefined -fno-sanitize-recover=undefined \
        -I"$root/include" -c "$sources/$part.c" -o "$out/objects/$part.o"
done
clang-14 -fsanitize=fuzzer,address,undefined -o "$out/guided" "$out"/objects/*.o "$engine"
(cd "$sources" && gcc -std=c11 -O1 -Wall -Wextra -Werror -no-pie -I../../include -o "$out/cover" cover.c drive.c harness.c \
    facts.c decode.c reader.c lent.c guard.c mutate.c seeds.c "$out/plain.o")

# reached WORDS..: what a run of the driver reaches, by function
cd "$out"
nm cover | awk '{ print $1, $3 }' >symbols
reached() {
    nice -n 10 ./cover "$@" >cover.out 2>cover.log
    awk 'NR == FNR { name[$1] = $2; next } $1 == "edges" { printf "  edges without optimisation: %s; not all in:", $2; next }
         { printf " %s %s", name[$1], $2 } END { print "" }' symbols cover.log
}

./cover 1 2000 corpus 2>cover.log
status=0
nice -n 10 ./guided -max_total_time="$seconds" -max_len=32768 -timeout=20 -print_final_stats=1 -artifact_prefix=found/ \
    corpus >log 2>&1 || status=$?
grep -o 'Loaded 1 modules .*counters)' log
grep 'INITED' log || true
grep -E '^#[0-9]+.DONE|^stat::number_of_executed_units|^SUMMARY|BROKEN' log || true
echo "20,000 inputs of the driver:"
reached 1 20000
echo "the corpus:"
find corpus -type f -size -70k | sort >names
reached --input $(cat names)
exit $status
