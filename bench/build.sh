# What bench/run and bench/guard share: how the bench is built, and how its instructions are counted. A script reads it,
# behind c/archive.sh, when it knows where to build, as built.

fail() { say "$1"; exit 1; }

# Plain C of the library's rules, which every compiler compiles; and the bench's own files.
plain='plain told bridge readback puckreader yard salvage'
own_files='bench streams base requests'

# compiler NAME: the kit's, or one of the system's
compiler() {
    case $1 in
    kit) echo "$tools/bin/clang --target=$target" ;;
    *) echo "$1" ;;
    esac
}

# compile COMPILER OPTIMISATION FILE.c FILE.o: no compiler uses its own headers, or adds checks that nobody asked for
compile() {
    $(compiler "$1") -std=c99 "$2" -fPIE -fno-stack-protector -fcf-protection=none -Wall -Wextra -Wpedantic -Werror -nostdinc -isystem "$here/c/kit" -I "$here/c" \
        -c "$here/bench/$3" -o "$built/$4" >&2
}

# link PROGRAM FILE..
link() {
    program=$1
    shift
    "$kit/bin/rattle-link" --target $target --toolchain "$tools" -o "$built/$program" "$@" > "$built/link.log" 2>&1 || { cat "$built/link.log" >&2; return 1; }
}

# build_own: the bench's own files, by the kit's compiler
build_own() {
    for file in $own_files; do compile kit -O2 $file.c $file.o || fail "$file.c was not built"; done
}

# build_bench COMPILER OPTIMISATION: the program bench-COMPILER-OPTIMISATION, with the plain C of that compiler
build_bench() {
    objects=
    for file in $plain; do
        compile "$1" "$2" $file.c "$file-$1$2.o" || fail "$file.c was not built by $1 at $2"
        objects="$objects $file-$1$2.o"
    done
    for file in $own_files; do objects="$objects $file.o"; done
    (cd "$built" && link "bench-$1$2" $objects "$archive") || fail "the bench was not linked with the C of $1 at $2"
}

# can_count: whether instructions can be counted here
can_count() { valgrind --tool=callgrind --help > /dev/null 2>&1; }

# counts NAME PROGRAM WORD ..: each stream's name with its instructions a word, to the file NAME; the dumps stand in the
# order of the calls of mark, three for a stream
counts() {
    to=$built/$1
    shift
    rm -rf "$to" "$to.dumps" && mkdir -p "$to.dumps" || return
    valgrind -q --tool=callgrind "--callgrind-out-file=$to.dumps/out" --dump-after=mark \
        "$tools/lib/ld-linux-x86-64.so.2" --library-path "$tools/lib" "$@" > "$to.names" || return
    awk -F '\t' -v out="$to.dumps/out." '{
        for (i = 1; i <= 3; i++) {
            file = out (++n)
            while ((getline line < file) > 0) if (line ~ /^totals:/) { split(line, part, " "); total[i] = part[2] }
            close(file)
        }
        printf "%s\t%s\t%s\t%.2f\n", $1, $2, $3, (total[3] - total[2]) / $4
    }' "$to.names" > "$to.counts" && mv "$to.counts" "$to"
}
