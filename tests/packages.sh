#!/bin/sh
# packages.sh: tries the ways by which others take the library up, on x86-64 and as root. The Debian packages are built, installed in a clean root
# (debootstrap's smallest, with a C compiler), used there by the command, from C and from C++, and removed, when nothing of them is left; the
# Python package is built as a wheel and used from an environment of its own; and scripts/install is tried below a folder. It prints a line for
# each part and fails if anything fails.
set -eu
cd "$(dirname "$0")/.."
if [ "$(uname -m)" != x86_64 ] || [ "$(id -u)" -ne 0 ]; then
    echo "packages: left out: this machine is no x86-64, or this is not root"
    exit 0
fi
scripts/install-tools debootstrap dpkg-dev binutils python3-venv python3-setuptools python3-wheel python3-pip pkg-config g++ man-db
out=$PWD/target/tried
root=$out/root
rm -rf "$out"
mkdir -p "$out"
say() { echo "packages: $*"; }

scripts/build-packages
debs=$(cd target/packages && ls ./*.deb)
suite=$(sed -n 's/^VERSION_CODENAME=//p' /etc/os-release)
debootstrap --variant=minbase --include=gcc,g++,libc6-dev,pkg-config "$suite" "$root" >"$out/debootstrap.log" 2>&1 || { tail -n 20 "$out/debootstrap.log" >&2; exit 1; }
mkdir "$root/try"
cp target/packages/*.deb samples/*.bin tests/layers/*.txt tests/c/import.c "$root/try/"
# The root as it was, and as it is when the packages are gone: every file but dpkg's own notes.
listed() { (cd "$root" && find . -path ./try -prune -o -path ./var -prune -o ! -type d -print | sort); }
listed >"$out/before"
cat >"$root/try/inside" <<'INSIDE'
#!/bin/sh
set -eu
cd /try
dpkg -i ./*.deb >installed.log 2>&1 || { cat installed.log; exit 1; }
layers loop-a.bin | cmp - loop-a.txt
status=0
layers --explain refused.bin >refused.out 2>refused.err || status=$?
[ "$status" -eq 1 ]
cmp refused.out refused.txt
grep -q '^layers: 9: entry 1 ' refused.err
cat loop-a.bin | layers | cmp - loop-a.txt
layers --version
strict="-O2 -Wall -Wextra -Werror -pedantic"
gcc -std=c11 $strict import.c $(pkg-config --cflags --libs thoquenry) -o shared
./shared
gcc -std=c11 $strict import.c $(pkg-config --cflags thoquenry) -l:libthoquenry.a -o archived
./archived
ldd ./shared | grep -q 'libthoquenry.so.0.5 => /'
! ldd ./archived | grep -q thoquenry
printf '#include <thoquenry.h>\nint main() { return thq_version() == THQ_VERSION_NUMBER ? 0 : 1; }\n' >version.cc
g++ -std=c++17 $strict version.cc $(pkg-config --cflags --libs thoquenry) -o version
./version
[ -f /usr/share/man/man1/layers.1.gz ] && [ -f /usr/share/man/man3/thoquenry.3.gz ]
dpkg --verify thoquenry libthoquenry-dev libthoquenry0.5
dpkg -P thoquenry libthoquenry-dev libthoquenry0.5 >removed.log 2>&1 || { cat removed.log; exit 1; }
INSIDE
chroot "$root" sh /try/inside
listed >"$out/after"
diff "$out/before" "$out/after" | grep -v 'ld.so.cache' | grep '^[<>]' && { say "the root is not as it was"; exit 1; }
say "installed in a clean root, used, and removed: $(echo "$debs" | tr '\n' ' ')"

/usr/bin/python3 -m venv --system-site-packages "$out/venv"
cp -rL python "$out/python"
"$out/venv/bin/pip" install --quiet --disable-pip-version-check --no-index --no-build-isolation --no-deps "$out/python"
rm -rf "$out/python"
(cd "$out" && THOQUENRY_SO=$PWD/../lib/libthoquenry.so venv/bin/python -c 'import thoquenry; print("packages: the Python package,", thoquenry.__version__, "at", thoquenry.__file__.split("/tried/")[1]); print("packages:", thoquenry.Refused(15, 3))')

scripts/install PREFIX=/opt/thoquenry DESTDIR="$out/placed"
PKG_CONFIG_PATH=$out/placed/opt/thoquenry/lib/pkgconfig
export PKG_CONFIG_PATH
[ "$(pkg-config --modversion thoquenry)" = "$("$out/placed/opt/thoquenry/bin/layers" --version | cut -d ' ' -f 2)" ]
"$out/placed/opt/thoquenry/bin/layers" samples/loop-a.bin | cmp - tests/layers/loop-a.txt
for page in "$out"/placed/opt/thoquenry/share/man/man?/*; do
    warned=$(man --warnings -E UTF-8 -l -Tutf8 "$page" 2>&1 >/dev/null)
    [ -z "$warned" ] || { say "$page: $warned"; exit 1; }
done
say "installed below a folder and used"
rm -rf "$out"
