#!/bin/sh
# release.sh FOLDER: makes in this folder, outside of the repository, an archive of what was proved and built in this clone,
# with which RELC is used without the kit: the program, both libraries, headers, the crate, pages and what the last `rt ci`
# said; and tries it where the kit isn't on the path. It proves nothing itself: `rt ci`, `./relc-build` and
# `bindings/build.sh` come first. Wants a C compiler and, to try the crate, cargo.
set -e
here=$(CDPATH= cd -- "$(dirname "$0")" && pwd)
[ $# -eq 1 ] || { echo "release.sh: a folder is wanted, outside of the repository, for the archive" >&2; exit 2; }
to=$(mkdir -p "$1" && CDPATH= cd -- "$1" && pwd)
version=$(sed -n 's/^version = "\(.*\)"$/\1/p' "$here/bindings/rust/Cargo.toml")
name=relc-$version-linux-x86_64
for file in crates/relc/out/relc bindings/out/librelc.a bindings/out/librelc.so; do
    [ -e "$here/$file" ] || { echo "release.sh: there is no $file (./relc-build, bindings/build.sh)" >&2; exit 1; }
done
rm -rf "${to:?}/$name"
make -s -C "$here/bindings" install DESTDIR="$to/$name" PREFIX=/usr
mv "$to/$name/usr"/* "$to/$name" && rmdir "$to/$name/usr"
sed -i 's|^prefix=.*|prefix=${pcfiledir}/../..|' "$to/$name/lib/pkgconfig/relc.pc"
mkdir "$to/$name/docs" "$to/$name/rust" "$to/$name/c"
cp -r "$here/docs"/*.md "$here/docs/pictures" "$to/$name/docs"
cp "$here/README.md" "$here/CHANGELOG.md" "$here/LICENSE-MIT" "$here/LICENSE-APACHE" "$to/$name"
(cd "$here" && tar -cf - bench/README.md crates/*/README.md) | tar -C "$to/$name" -xf -
cp -r "$here/examples" "$to/$name/examples"
for example in graph.c jobs.c jobs.relc index.c index.relc; do cp "$here/bindings/c/$example" "$to/$name/c"; done
[ ! -e "$here/bindings/out/librelc-check.a" ] || cp "$here/bindings/out/librelc-check.a" "$to/$name/lib"
(cd "$here/bindings/rust" && cp -r src examples build.rs Cargo.toml Cargo.lock "$to/$name/rust")
# (the measures stand outside of the crate)
sed -i '/^# measured by/,$d' "$to/$name/rust/Cargo.toml"
{
    echo "What proved and tested this:"
    rt version
    (cd "$here" && git log -1 --format='commit %H')
    (cd "$here" && rt ci 2>&1) | tail -n 2
} >"$to/$name/PROOF"
tar -C "$to" -czf "$to/$name.tar.gz" "$name"

# where the kit isn't on the path
try=$(mktemp -d)
trap 'rm -rf "$try"' EXIT
tar -C "$try" -xzf "$to/$name.tar.gz"
cd "$try/$name"
PATH=/usr/bin:/bin
"bin/relc" run <examples/graph.relc | cmp - examples/graph.out
${CC:-cc} -std=c11 -D_POSIX_C_SOURCE=200809L -O2 -o "$try/graph" c/graph.c -Iinclude lib/librelc.a -lpthread
"$try/graph" rust/examples/graph.relc >/dev/null
cargo=$(command -v cargo || ls "$HOME/.cargo/bin/cargo" 2>/dev/null) || { echo "left out, since there is no cargo: the crate" >&2; cargo=; }
[ -z "$cargo" ] || (cd rust && PATH=$PATH:$(dirname "$cargo") "$cargo" run -q --offline --release --example graph >/dev/null)
cat PROOF
echo "$to/$name.tar.gz"
