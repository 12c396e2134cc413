# What bin/odb_batch, bin/odb_library, bin/odb_program and bin/odb_wasm do alike: each proves and builds a crate and all
# crates below it if what they make is missing or older than its sources. Sourced by them, after they have set `root`, the
# top of the repository; `tool`, their own name; `top`, the crate; and `made`, the file that is made of it, by `build`.

say() { echo "$tool: $*" >&2; }

crates() { "$root/bin/crates" "$top"; }

# The crates below it.
below() { crates | sed '$d'; }

is_current() {
    [ -f "$made" ] || return 1
    local name part newer folders=("$root/crates.txt")
    for name in $(crates); do
        for part in src specs proofs; do
            if [ -d "$root/crates/$name/$part" ]; then folders+=("$root/crates/$name/$part"); fi
        done
    done
    newer=$(find "${folders[@]}" -type f -newer "$made" -print -quit)
    [ -z "$newer" ]
}

# Prints rules of GNU make for the libraries of the crates below. A library is made of its sources and of the libraries that it
# uses, if it is older than one of them; what rt has left serves as well. Crates at the same height may be proved side by
# side, so they share the processors. One that no crate of the next height uses gets one, and the others share the rest.
rules() {
    below | awk -v processors="$(nproc)" '
        function library(name) { return "crates/" name "/out/rlib/" name ".rlib" }
        NR == FNR {
            at = index($0, ":")
            split(substr($0, 1, at - 1), head, " ")
            uses[head[1]] = substr($0, at + 1)
            next
        }
        {
            order[++count] = $1
            height[$1] = 1
            parts = split(uses[$1], used, " ")
            for (i = 1; i <= parts; i++) {
                if (!height[used[i]]) continue
                needed[$1] = needed[$1] " " library(used[i])
                if (height[used[i]] >= height[$1]) height[$1] = height[used[i]] + 1
            }
            for (i = 1; i <= parts; i++) {
                if (height[used[i]] == height[$1] - 1) is_awaited[used[i]] = 1
            }
        }
        END {
            for (i = 1; i <= count; i++) {
                if (height[order[i]] > highest) highest = height[order[i]]
            }
            for (i = 1; i <= count; i++) {
                if (height[order[i]] == highest) is_awaited[order[i]] = 1
                if (is_awaited[order[i]]) awaited[height[order[i]]]++
                else others[height[order[i]]]++
            }
            printf "SHELL = /bin/bash\nall:"
            for (i = 1; i <= count; i++) printf " %s", library(order[i])
            print "\nsources = $(shell find crates/$(1)/src crates/$(1)/specs crates/$(1)/proofs -type f 2>/dev/null)"
            for (i = 1; i <= count; i++) {
                at = height[order[i]]
                jobs = is_awaited[order[i]] ? int((processors - others[at]) / awaited[at]) : 1
                printf "%s: crates.txt $(call sources,%s)%s\n", library(order[i]), order[i], needed[order[i]]
                printf "\t@. bin/building.sh && prove %s %d\n", order[i], (jobs > 1 ? jobs : 1)
            }
        }' "$root/crates.txt" -
}

# Proves one crate, builds its library, and says how long that took, by the clock and of processors: prove NAME JOBS
prove() {
    local library=out/rlib/$1.rlib TIMEFORMAT='%0R s (%0U s of processors)'
    say "proving $1" 2>&3
    if { time build_over_proofs "$1" "$library" "$2" </dev/null >"$notes/$1" 2>&1; } 2>"$notes/$1.time"; then
        touch "crates/$1/$library"
        say "proved $1 in $(cat "$notes/$1.time")" 2>&3
    else
        mv "$notes/$1" "$notes/$1.failed"
        return 1
    fi
}

# Prints the errors of a crate that is not proved, and then its name: refused NAME LOG
refused() {
    { grep -E ':[0-9]+:[0-9]+: |: no proof' "$2" || tail -n 20 "$2"; } | head -n 20 | cut -c 1-300 >&2
    say "$1 was not proved, so nothing was built"
}

# Proves the crates below, side by side where none uses the other, and then the crate itself. A crate that is not proved lets
# the others end before it is named, with status 70. What is proved is kept, also if this is broken off.
prove_crates() {
    local log status=0
    notes=$(mktemp -d)
    export root tool top notes
    (cd "$root" && make --silent --keep-going --jobs="$(nproc)" --file=<(rules) all) 3>&2 2>"$notes/make" || status=70
    if [ $status = 0 ]; then
        say "proving and building $top"
        build </dev/null >"$notes/$top.failed" 2>&1 || status=70
    fi
    if [ $status != 0 ]; then
        for log in "$notes"/*.failed; do
            if [ -f "$log" ]; then refused "$(basename "$log" .failed)" "$log"; else cat "$notes/make" >&2; fi
        done
    fi
    rm -r "$notes"
    return $status
}

# Proves a crate over the libraries of the crates below it, and compiles it if it is a program or a static library. It takes what
# an earlier check has kept of it; of a library of which nothing is kept it makes the statements alone, which takes a fifth
# less: build_over_proofs NAME OUT JOBS [FLAG..]
build_over_proofs() {
    local kit name=$1 out=$2 jobs=$3 used words=(--incremental out/incremental src/lib.rt)
    shift 3
    kit=$(dirname "$(rt doc)")
    if [ -f "$root/crates/$name/src/main.rt" ]; then
        words=(--incremental out/incremental src/main.rt)
    elif grep -q "^$name staticlib:" "$root/crates.txt"; then
        words=(--incremental out/incremental --crate-type staticlib src/lib.rt)
    elif [ ! -d "$root/crates/$name/out/incremental" ]; then
        words=(--statements src/lib.rt)
    fi
    words+=(--crate-name "$name" --extern "std=$kit/rlibs/std.rlib" -L "dependency=$kit/rlibs")
    for used in $(sed -n "s/^$name\( staticlib\)\?://p" "$root/crates.txt"); do
        if [ -d "$root/crates/$used" ]; then
            words+=(--extern "$used=$root/crates/$used/out/rlib/$used.rlib")
        else
            words+=(--extern "$used=$kit/rlibs/$used.rlib")
        fi
    done
    for used in $("$root/bin/crates" "$name" | sed '$d'); do
        words+=(-L "dependency=$root/crates/$used/out/rlib")
    done
    words+=(--antt-project "$kit/rattle/logic/antt-project.json" --logic-built "$kit/logic_built" --links "$name=")
    mkdir -p "$root/crates/$name/out/rlib"
    rm -f "$root/crates/$name/out/rlib/stamp"
    (
        flock 9 # as rt does, so that one at a time works in a crate
        cd "$root/crates/$name" && "$kit/bin/rattle" build "${words[@]}" --jobs "$jobs" -o "$out" "$@"
    ) 9<"$root/crates/$name"
}

# Lowers the crate, for the least processor of x86-64, by a toolchain whose clang keeps the LLVM module: keep_module OUT
keep_module() {
    local kit toolchain status=0
    kit=$(dirname "$(rt doc)")
    toolchain=$(mktemp -d)
    mkdir "$toolchain/bin"
    ln -s "$kit/toolchain/lib" "$toolchain/lib"
    ln -s "$kit"/toolchain/bin/{ld.lld,llvm-ar,rattle-x64} "$toolchain/bin/"
    cp "$root/wasm/clang" "$toolchain/bin/clang"
    build_over_proofs "$top" "$toolchain/unused" "$(nproc)" --toolchain "$toolchain" --cpu x86-64 &&
        mv "$toolchain/module.bc" "$1" || status=1
    rm -r "$toolchain"
    return $status
}

clang_of_kit() { echo "$(dirname "$(rt doc)")/toolchain/bin/clang"; }

# Writes an LLVM module as text for another system: with its data layout, which has the same sizes and alignments for what
# the crates use, its triple, and no attribute of a processor of x86-64: retarget MODULE TRIPLE
retarget() {
    local clang layout
    clang=$(clang_of_kit)
    layout=$("$clang" --no-default-config --target="$2" -S -emit-llvm -x c /dev/null -o - | grep '^target ')
    "$clang" --no-default-config --target=x86_64-unknown-linux-gnu -S -emit-llvm -Xclang -disable-llvm-passes -x ir "$1" -o - |
        sed -e "s/^target datalayout = .*/$(grep datalayout <<<"$layout")/" \
            -e "s/^target triple = .*/$(grep triple <<<"$layout")/" \
            -e '/^attributes/s/"\(probe-stack\|stack-probe-size\|target-cpu\)"="[^"]*"//g'
}

# Optimizes an LLVM module, unless that was done since it was made: all other systems but WebAssembly take what is written.
# optimize MODULE OUT
optimize() {
    if [ "$2" -nt "$1" ] && [ "$2" -nt "$root/bin/building.sh" ]; then return; fi
    "$(clang_of_kit)" --no-default-config --target=x86_64-unknown-linux-gnu -O2 -emit-llvm -c -x ir "$1" -o "$2"
}

# Compiles an LLVM module for another system than x86-64 Linux: compile_module MODULE TRIPLE OUT. For Windows the allocator is
# called as on Linux, with answers in two registers.
compile_module() {
    local optimized=${1%.bc}.optimized.bc text flags=(-O2 -Xclang -disable-llvm-passes -fno-addrsig) status=0
    optimize "$1" "$optimized" || return 1
    text=$(mktemp --suffix=.ll)
    retarget "$optimized" "$2" |
        case $2 in
            *windows*) sed 's/\(declare\|call\) \([^@]*@rattle_\(alloc\|realloc\|dealloc\)(\)/\1 x86_64_sysvcc \2/' ;;
            *) cat ;;
        esac >"$text"
    case $2 in *linux*) flags+=(-fPIC) ;; esac
    "$(clang_of_kit)" --no-default-config --target="$2" "${flags[@]}" -c -x ir "$text" -o "$3" || status=1
    rm "$text"
    return $status
}

# Ends with status 70 if a tool is not on the PATH.
need() {
    local it
    for it in "$@"; do
        if ! command -v "$it" >/dev/null; then
            say "$it is not on the PATH"
            exit 70
        fi
    done
}

# Builds what is made, by `build`, unless it is current.
bring_up_to_date() {
    if is_current; then return; fi
    if ! command -v rt >/dev/null; then
        say "it is not built yet; building it needs the command rt of the Rattle toolchain on the PATH"
        exit 70
    fi
    need make flock
    local started=$SECONDS
    say "proving and building $top and the crates below it, once; later only what has changed"
    prove_crates || exit
    say "proved and built after $(((SECONDS - started + 30) / 60)) min"
}
