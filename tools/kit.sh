# What the commands share; sourced by them. `root` is the repository, `kit` the folder of the kit, `clang` the kit's C compiler, which a later kit may lack.
root=$(cd "$(dirname "${BASH_SOURCE[0]}")/.." && pwd)
kit=$(dirname "$(rt doc)")
clang=$kit/toolchain/bin/clang

# the status of a command that could not build what it is to run: another one than that of a program which gives other answers than expected
unbuilt=3

# the kit proves, builds and runs on x86-64, and has no emulator
[ "$(uname -m)" = x86_64 ] || {
    echo "this machine is $(uname -m): the kit builds for x86-64, and has no emulator for other machines" >&2
    exit "$unbuilt"
}

# NAME WORDS..: the program of that name, as it was built last, is started with these arguments
start() { "$root/crates/$1/out/$1" "${@:2}"; }

# for each thing that was built a file, which names the kit and is as old as the start of the build: what has changed since is newer
marks=$root/target/made

# WHEN NAME: what has this name was built of the crates as they were then
mark() { mkdir -p "$marks" && rt version >"$marks/$2" && touch -d "$1" "$marks/$2"; }

# NAME FILE: whether the file was built by this kit, and no crate has changed since
is_built() {
    [ -e "$2" ] && [ -e "$marks/$1" ] && [ "$(rt version)" = "$(cat "$marks/$1")" ] &&
        [ -z "$(find "$root/crates.txt" "$root"/crates/*/{src,specs,proofs} -newer "$marks/$1" -print -quit)" ]
}

# WHAT NAME FILE COMMAND..: the command, which makes the file, is run if a crate has changed since; says so where the file is made for the first time, and shows what the
# command says only if it fails
build() {
    local what=$1 name=$2 file=$3 begun said
    shift 3
    is_built "$name" "$file" && return
    [ -e "$file" ] || echo "proving and building $what: this takes some minutes" >&2
    begun=$(date +@%s.%N)
    said=$("$@" </dev/null 2>&1) || {
        printf '%s\n' "$said" >&2
        exit "$unbuilt"
    }
    mark "$begun" "$name"
}

# NAME: proves and builds the program of that name. `rt run` starts it too, here on no input; how it ends does not matter, and rt says that it starts it only where it is built
prove_program() {
    local said
    said=$(cd "$root/crates/$1" && rt run 2>&1)
    printf '%s\n' "$said"
    grep -q "^rt: running out/$1;" <<<"$said"
}
build_program() { build "the $1 program" "$1" "$root/crates/$1/out/$1" prove_program "$1"; }

# the library for C, made again only if a crate has changed since
archive=$root/crates/estimate_c/out/libestimate_c.a
library() { build 'the library for C' estimate_c "$archive" prove_library; }

# whether `rt ci` has just passed, which leaves each library as it proved it
behind_ci=
prove_library() {
    [ -n "$behind_ci" ] && prove_library_behind_ci && return
    cd "$root/crates/estimate_c" && rt lib
}

# NAME: the repository's crates below it
crates_below() {
    awk -v top="$1" '
        function visit(name, uses, count, i) {
            if (name in seen) return
            seen[name] = 1
            if (name != top) print name
            count = split(line[name], uses, " ")
            for (i = 1; i <= count; i++) if (uses[i] in line) visit(uses[i])
        }
        { sub(/#.*/, "") }
        split($0, half, ":") == 2 { split(half[1], head, " "); line[head[1]] = half[2] }
        END { visit(top) }' "$root/crates.txt"
}

# proves and builds the library over the libraries that `rt ci` left. `rt lib` would prove each of them again first, one after the other: it takes only what it built itself
prove_library_behind_ci() {
    local name words=(--extern std="$kit/rlibs/std.rlib" -L dependency="$kit/rlibs")
    for name in $(crates_below estimate_c); do
        [ -d "$root/crates/$name/out/rlib/$name.rlib" ] && [ ! -e "$root/crates/$name/out/rlib/stamp" ] || return 1
        words+=(-L dependency="$root/crates/$name/out/rlib")
    done
    for name in $(sed -n 's/#.*//; s/^estimate_c [^:]*://p' "$root/crates.txt"); do
        if [ -d "$root/crates/$name" ]; then words+=(--extern "$name=$root/crates/$name/out/rlib/$name.rlib"); else words+=(--extern "$name=$kit/rlibs/$name.rlib"); fi
    done
    (cd "$root/crates/estimate_c" && mkdir -p out && "$kit/bin/rattle" build --crate-name estimate_c --crate-type staticlib src/lib.rt "${words[@]}" \
        --antt-project "$kit/rattle/logic/antt-project.json" --logic-built "$kit/logic_built" --jobs 2 --toolchain "$kit/toolchain" --backend llvm -o "$archive")
}

# CC: whether it makes programs that have the C library in them
compiles() {
    local made
    command -v "$1" >/dev/null || return 1
    made=$(mktemp)
    echo 'int main(void) { return 0; }' | "$1" -static -xc - -o "$made" 2>/dev/null
    local status=$?
    rm -f "$made"
    return $status
}

# prints the C compiler, Debian's own; where there is none it is installed if that may be done here (root, apt), and otherwise the packages that have it are named
compiler() {
    local cc=gcc packages='gcc libc6-dev'
    if ! compiles "$cc" && [ "$(id -u)" = 0 ] && command -v apt-get >/dev/null; then
        echo "installing a C compiler for x86-64: apt-get install $packages" >&2
        # shellcheck disable=SC2086
        { apt-get install -y -q $packages || { apt-get update -q && apt-get install -y -q $packages; }; } >&2
    fi
    compiles "$cc" || {
        echo "a C compiler for x86-64 is needed: apt-get install $packages" >&2
        return 1
    }
    echo "$cc"
}

# SOURCES..: the C program of these over the library is made; `c_program` says where it is
over_library() {
    local cc
    cc=$(compiler) || return $unbuilt
    (library) || return $unbuilt
    c_program=$root/target/c/$(basename "$1" .c)
    mkdir -p "$root/target/c"
    "$cc" -O2 -Wall -Wextra -I"$root/include" "$@" "$archive" -static -o "$c_program" || return $unbuilt
}

# ARGUMENTS: the C program that was made last is run with them
run_program() { "$c_program" "$@"; }

# STATUS: what a test that ended with it is said to have done
fault_of() {
    case $1 in
    "$unbuilt") echo 'could not be built' ;;
    126 | 127) echo 'could not be started' ;;
    *) echo 'answers otherwise' ;;
    esac
}
