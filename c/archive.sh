# What c/run and bench/ share: the kit's tools, and the archive libistrolf.a. A script reads it when it knows its own
# name, as me, and the folder of the project, as here.

say() { printf '%s: %s\n' "$me" "$1" >&2; }

command -v rt > /dev/null || { say 'this needs the Rattle kit, with rt on the path'; exit 2; }
kit=$(dirname "$(rt doc)")
tools=$kit/toolchain
target=x86_64-unknown-linux-gnu
archive=$here/target/staticlib/libistrolf.a

# execute PROGRAM WORD ..: what the kit builds is an x86-64 program, and runs under the kit's own loader
execute() { "$tools/lib/ld-linux-x86-64.so.2" --library-path "$tools/lib" "$@"; }

# prepared NAME ..: these programs, or libistrolf.a, are proved and built where that was not done for the sources as they
# are (make/build)
prepared() { "$here/make/build" "$@" >&2; }
