#!/usr/bin/env bash
# install.sh: runs the commands of README.md, "Install, and a program of ten lines", one after the
# other in a fresh folder that has the library as `rt lib` built it, and installs below a folder of
# its own. Then it checks when `make` runs `rt`, and for which level. It prints what fails, and ends
# with 1.
set -euo pipefail
here=$(cd "$(dirname "$0")" && pwd)
fresh=$here/out/install
rm -rf "$fresh"
trap 'rm -rf "$fresh"' EXIT # `rt` takes no links in out/.
mkdir -p "$fresh/bin" "$fresh/crates"
cp "$here"/../../crates.txt "$fresh"
for below in $("$here/below.sh"); do mkdir -p "$fresh/crates/$below"; done
mkdir "$fresh/crates/etherparse_c/out"
cp -r "$here"/{Makefile,README.md,exports.map,below.sh,*.pc.in,include} "$fresh/crates/etherparse_c"
cd "$fresh/crates/etherparse_c"

fails() { echo "install.sh: $1"; exit 1; }

# An `rt` that builds nothing: it puts the proved library where `rt lib` would, and notes its words.
cat > "$fresh/bin/rt" <<END
#!/bin/sh
echo "\$*" >> "$fresh/asked.txt"
cp "$here/out/libetherparse_c.a" out/
END
printf '#!/bin/sh\nexec "$@"\n' > "$fresh/bin/sudo"
chmod +x "$fresh/bin/rt" "$fresh/bin/sudo"

# The folders of PATH that have no `rt`.
others=
while read -r -d : folder; do
  [[ -x $folder/rt ]] || others+=$folder:
done <<< "$PATH:"
for tool in make cc gcc pkg-config; do
  PATH=$others command -v "$tool" > /dev/null || fails "$tool is not there"
done

export PATH=$fresh/bin:$others
export MAKEFLAGS="PREFIX=$fresh/usr"
export PKG_CONFIG_PATH=$fresh/usr/lib/pkgconfig
# Whether `rt` was asked these words, one word list after the other.
asked() {
  local what=$1
  printf '%s\n' "${@:2}" > "$fresh/wanted.txt"
  cmp -s "$fresh/wanted.txt" "$fresh/asked.txt" || fails "$what: rt was asked: $(cat "$fresh/asked.txt")"
}
level() { [[ $(pkg-config --variable=cpu etherparse) == "$1" ]] || fails "$2: installed for $(pkg-config --variable=cpu etherparse)"; }

# The page: the program, and each command.
section() { sed -n '/^## Install, and/,/^It needs neither/p' README.md; }
section | sed -n '/^```c$/,/^```$/p' | sed '/^```/d' > program.c
section | sed '/^```c$/,/^```$/d' | sed -n 's/^    \(.*\)/\1/p' > commands.txt
bash -euxo pipefail commands.txt > said.txt 2> run.txt || { cat run.txt; fails "a command of the page"; }
printed='protocol 17, 0 bytes follow. '
[[ $(grep -c "^$printed$" said.txt) == 3 ]] || { cat said.txt; fails "the program printed something else"; }
asked 'the commands of the page' 'lib --cpu=x86-64-v2'
level x86-64-v2 'the commands of the page'
# A program of the static library needs no folder of ours when it starts.
gcc program.c $(pkg-config --cflags --libs etherparse)
ldd a.out > libraries.txt
! grep -q etherparse libraries.txt || fails "the program wants the shared object"
# What is installed links the worked values of each header file, both ways.
for name in etherparse filter reassembly rewriting; do
  for module in etherparse etherparse-shared; do
    gcc "$here/tests/$name.c" $(pkg-config --cflags --libs "$module") -o cases &&
      LD_LIBRARY_PATH=$fresh/usr/lib ./cases > said.txt || { cat said.txt; fails "$module, $name"; }
  done
done
version=$(sed -n 's/^#define ETHERPARSE_VERSION "\(.*\)"/\1/p' include/etherparse.h)
LD_LIBRARY_PATH=$fresh/usr/lib ldd cases > libraries.txt
grep -qF "libetherparse_c.so.${version%%.*} =>" libraries.txt || fails "the shared object has another name"

# Each runs `rt` only if the library is not there, is for another level, or is older than a source.
make > said.txt 2>&1 && asked 'a second make' 'lib --cpu=x86-64-v2'
rm "$fresh/asked.txt"
{ make CPU=x86-64 && make install; } > said.txt 2>&1
asked 'another level, then an installation' 'lib --cpu=x86-64'
level x86-64 'another level, then an installation'
mkdir src
for source in src/lib.rt src/lib.antt include/etherparse.h include/etherparse.rs ../../crates.txt; do
  rm "$fresh/asked.txt"
  touch "$source"
  make install > said.txt 2>&1
  asked "a new $source" 'lib --cpu=x86-64'
done
rm "$fresh/asked.txt"
rm out/lib/libetherparse_c.a
make install > said.txt 2>&1
asked 'an installation alone' 'lib --cpu=x86-64-v2'
level x86-64-v2 'an installation alone'
rm "$fresh/asked.txt"
echo >> out/lib/libetherparse_c.a
make > said.txt 2>&1
asked 'another archive' 'lib --cpu=x86-64-v2'

# Below another folder, for others than those of PREFIX: all files, as the .pc files name them.
staged=$fresh/staged$fresh
make DESTDIR="$fresh/staged" LIBDIR="$fresh/lib64" INCLUDEDIR="$fresh/headers" install > said.txt 2>&1 ||
  { cat said.txt; fails "an installation below DESTDIR"; }
diff <(ls include) <(ls "$staged/headers") || fails "other header files are installed"
gcc "$here/tests/filter.c" -I "$staged/headers" -L "$staged/lib64" -letherparse_c -o cases ||
  fails "what is below DESTDIR does not link"
for module in etherparse etherparse-shared; do
  ask() { PKG_CONFIG_PATH=$staged/lib64/pkgconfig pkg-config "$1" "$module"; }
  [[ $(ask --modversion) == "$version" ]] || fails "$module is of version $(ask --modversion)"
  [[ $(ask --variable=libdir) == "$fresh/lib64" ]] || fails "$module is in $(ask --variable=libdir)"
  [[ $(ask --variable=includedir) == "$fresh/headers" ]] || fails "the header files of $module: $(ask --cflags)"
done

# Without `rt`: what is there is installed, for its level, and no other.
rm "$fresh/bin/rt" "$fresh/asked.txt"
touch -d '+1 minute' src/lib.rt
make uninstall > said.txt 2>&1
[[ -z $(find "$fresh/usr" -type f -o -type l) ]] || fails "something is left after make uninstall"
make install > said.txt 2>&1 || { cat said.txt; fails "an installation without rt"; }
level x86-64-v2 'an installation without rt'
! make CPU=x86-64-v3 install > said.txt 2>&1 || fails "a level that was not built is installed"
