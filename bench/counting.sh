# Sourced by bench/run, bench/trace and bench/port: how a program is compiled, run and its instructions counted on this machine.
#   compile                    the words that compile a C program
#   plain, proved              run a C program, and one of the kit
#   count INPUT WORDS..        how many instructions these words take on that input
#   by_function INPUT WORDS..  the same for each function, a line each: NAME COUNT; a file in the folder that `room` names may be written
#   words_of PROGRAM           sets `words`: a program of the kit as count takes it, under the kit's loader where it is emulated
#   whole                      1 where a count over a million ticks is in reach
die() { printf '%s: %s\n' "$0" "$*" >&2; exit 2; }
have() { command -v "$1" >/dev/null || die "$1 is missing"; }

have python3
have rt
if [ "$(uname -m)" = x86_64 ]; then
    have valgrind
    have gcc
    whole=1
    # linked statically: else the loader's look-up of memcpy counts as stack of the call that makes it first
    compile=(gcc -static)
    plain() { "$@"; }
    proved() { "$@"; }
    words_of() { words=("$1"); }
    # callgrind says the number on standard error
    count() { valgrind --tool=callgrind --callgrind-out-file=/dev/null "${@:2}" <"$1" 2>&1 >/dev/null | sed -n 's/.*Collected : //p'; }
    by_function() {
        valgrind --tool=callgrind --callgrind-out-file="$room/callgrind" "${@:2}" <"$1" >/dev/null 2>&1
        callgrind_annotate --threshold=100 "$room/callgrind" | sed -nE 's/^ *([0-9,]+) \( *[0-9.]+%\) +[^:]*:([^ ]+).*/\2 \1/p' | tr -d ,
    }
else
    # The kit's emulator writes a line for each instruction. The processor it plays has no `rep movsb` of its own, which would be a line for each byte copied.
    have x86_64-linux-gnu-gcc
    whole=
    compile=(x86_64-linux-gnu-gcc -static)
    kit=${RATTLE_HOME:-$(dirname "$(dirname "$(readlink -f "$(command -v rt)")")")}/on/$(uname -m)/toolchain
    emulator=$kit/bin/qemu-x86_64 loader=$kit/lib/ld-linux-x86-64.so.2
    [ -x "$emulator" ] || die "the kit's emulator is missing"
    plain() { "$emulator" "$@"; }
    proved() { "$emulator" "$loader" --library-path "$kit/lib" "$@"; }
    words_of() { words=("$loader" --library-path "$kit/lib" "$1"); }
    instructions() { "$emulator" -cpu Haswell,-erms -one-insn-per-tb -d exec,nochain -D /dev/stderr "${@:2}" <"$1" 2>&1 >/dev/null | grep '^Trace'; }
    count() { instructions "$@" | wc -l; }
    by_function() { instructions "$@" | awk '{ n[NF > 4 ? $NF : "unnamed"]++ } END { for (name in n) print name, n[name] }'; }
fi
