#!/bin/sh
# Makes bindings/out/librelc.a and librelc.so: the proved archive of crates/rc_c, with close.c,
# heap.c, relc_words.c, relc_texts.c and relc_wait.c. Where the libraries below rc_c are there, as `rt ci` leaves them in a
# fresh clone, and no source of theirs is newer, rc_c alone is proved again. Else `rt lib` first
# proves the libraries that it has none of, or none of these sources, which takes long. With
# RELC_ARCHIVE=FILE an archive is taken that was made before. Wants the kit, a C compiler and `ar`.
#
# With the word --check it also makes librelc-check.a, which tells handles that are used wrongly
# (c/check.c), and wants `objcopy` too.
set -e
here=$(CDPATH= cd -- "$(dirname "$0")" && pwd)
crates=$here/../crates
out=$here/out
archive=$RELC_ARCHIVE

# Names the crates of this tree that rc_c stands on, and they on each other.
all_below() {
    awk -F: '
        { split($1, words, " "); below[words[1]] = $2 }
        function visit(name, count, names, at) {
            if (!(name in below) || name in seen) return
            seen[name] = 1
            count = split(below[name], names, " ")
            for (at = 1; at <= count; at++) visit(names[at])
        }
        END { visit("rc_c"); delete seen["rc_c"]; for (name in seen) print name }
    ' "$crates/../crates.txt"
}

# Whether each library below rc_c is there, and was made after the last change of any source of
# them. (A library is a folder, which each making makes anew; so its time is that of its making,
# also where its files are those of an earlier one.)
are_proved() {
    (
        cd "$crates" || exit 1
        names=$(all_below)
        [ -n "$names" ] || exit 1
        for name in $names; do
            library=$name/out/rlib/$name.rlib
            [ -d "$library" ] || exit 1
            newer=$(find ../crates.txt $names -name out -prune -o \
                \( -name '*.rt' -o -name '*.antt' -o -name crates.txt \) -newer "$library" -print)
            [ -z "$newer" ] || exit 1
        done
    )
}

# Proves rc_c over the libraries that are proved, and writes its archive to the file "$1".
prove_over_proved() {
    set -- --crate-type staticlib -o "$1"
    for library in "$crates"/*/out/rlib; do
        set -- "$@" -L "dependency=$library"
    done
    for name in $below; do
        set -- "$@" --extern "$name=$crates/$name/out/rlib/$name.rlib"
    done
    kit=$(dirname "$(dirname "$(readlink -f "$(command -v rattle)")")")
    (cd "$crates/rc_c" && rattle build --crate-name rc_c src/lib.rt \
        --antt-project "$kit/rattle/logic/antt-project.json" --logic-built "$kit/logic_built" \
        --toolchain "$kit/toolchain" --extern "std=$kit/rlibs/std.rlib" \
        -L "dependency=$kit/rlibs" "$@")
}

mkdir -p "$out"
if [ -z "$archive" ]; then
    below=$(sed -n 's/^rc_c staticlib: //p' "$crates/../crates.txt")
    if are_proved; then
        archive=$out/librc_c.a
        prove_over_proved "$archive"
    else
        (cd "$crates/rc_c" && rt lib)
        archive=$crates/rc_c/out/librc_c.a
    fi
fi
for part in close heap relc_words relc_texts relc_wait; do
    ${CC:-cc} -std=c11 -D_POSIX_C_SOURCE=200809L -O2 -fPIC -Wall -Wextra -c "$here/c/$part.c" \
        -o "$out/$part.o"
done
cp "$archive" "$out/librelc.a"
ar rs "$out/librelc.a" "$out/close.o" "$out/heap.o" "$out/relc_words.o" \
    "$out/relc_texts.o" "$out/relc_wait.o"
version=$(sed -n 's/^#define RELC_VERSION //p' "$here/c/relc.h")
${CC:-cc} -shared -o "$out/librelc.so" -Wl,-soname,librelc.so."$version" -Wl,--version-script="$here/c/relc.map" \
    -Wl,-z,defs -Wl,--whole-archive "$out/librelc.a" -Wl,--no-whole-archive -lpthread
# (a copy and no link, which rt ci takes for no file of the repository)
cp "$out/librelc.so" "$out/librelc.so.$version"

[ "$1" = --check ] || exit 0
# What the proved archive and close.c export is named otherwise, and check.c has the names. relc_wait.c calls by them.
sed -n 's/^\(uint32_t\|void\) relc_\([a-z_]*\)(.*/relc_\2 relc_unchecked_\2/p' "$here/c/relc.h" |
    grep -v '^relc_version ' >"$out/unchecked"
cp "$archive" "$out/unchecked.a"
ar rs "$out/unchecked.a" "$out/close.o" "$out/heap.o"
objcopy --redefine-syms="$out/unchecked" "$out/unchecked.a" "$out/librelc-check.a"
${CC:-cc} -std=c11 -D_POSIX_C_SOURCE=200809L -O2 -fPIC -Wall -Wextra -c "$here/c/check.c" -o "$out/check.o"
ar rs "$out/librelc-check.a" "$out/check.o" "$out/relc_words.o" "$out/relc_texts.o" "$out/relc_wait.o"
