#!/usr/bin/env bash
# release.sh: tries ./release and 'make install' with programs and a kit that stand in for the proved ones, in copies of what a release is
# made of: the same bytes twice, from two folders; what the archive and the Debian package have; that it refuses programs of other
# sources; an installation under a folder, from the tree and from the archive; and the package, installed in a root that has neither the
# tree nor a kit.
# The last line is 'N passed, M failed'.
set -u
cd "$(dirname "${BASH_SOURCE[0]}")/.." || exit 2
passed=0
failed=0
scratch=$(mktemp -d) || exit 2
trap 'rm -rf "$scratch"' EXIT
# The programs that stand here, for the package to be tried with.
declare -A real
for name in review rollout view doctor; do
    given=DIQENYU_${name^^}
    real[$name]=${!given:-$(./launch --state $name | sed -n 2p)}
done
unset DIQENYU_REVIEW DIQENYU_ROLLOUT DIQENYU_VIEW DIQENYU_DOCTOR DIQENYU_PROVED
mkdir -p "$scratch/kit/bin"
echo "stand-in-kit 1" >"$scratch/kit/KIT-ID"
printf '#!/bin/sh\nexit 1\n' >"$scratch/kit/bin/rt"
chmod +x "$scratch/kit/bin/rt"
export PATH=$scratch/kit/bin:$PATH
touch "$scratch/err"

wants() {
    local name=$1
    shift
    if "$@"; then
        passed=$((passed + 1))
    else
        failed=$((failed + 1))
        echo "FAILED $name: $*"
        cat "$scratch/err"
    fi
}

# tree FOLDER: a copy of the tree, with programs that say their names and words, and stand proved.
tree() {
    local name crate part
    mkdir -p "$1/crates"
    git ls-files -z --cached --others --exclude-standard ':!crates' ':!tests' ':!bench' | xargs -0 cp --parents -t "$1"
    cp crates.txt HANDLES "$1/"
    for crate in $(for name in review rollout view doctor; do ./launch --crates $name; done | sort -u); do
        mkdir "$1/crates/$crate"
        for part in src specs proofs; do
            [ -d "crates/$crate/$part" ] && cp -R "crates/$crate/$part" "$1/crates/$crate/"
        done
    done
    "$1/prove" --sums >"$scratch/sums"
    for name in review rollout view doctor; do
        mkdir "$1/crates/${name}_cli/out"
        printf '#!/bin/sh\necho "%s $*"\nexit 1\n' "$name" >"$1/crates/${name}_cli/out/${name}_cli"
        chmod +x "$1/crates/${name}_cli/out/${name}_cli"
    done
    "$1/prove" --passed "$scratch/sums"
    # (that is no part of what is made)
    rm -r "$1"/crates/*/out
}

# runs STATUS WORDS COMMAND ...: the command ends so, and writes these words.
runs() {
    local wanted=$1 words=$2 said status
    shift 2
    said=$("$@" 2>"$scratch/err")
    status=$?
    [ "$status" = "$wanted" ] && [ "$said" = "$words" ]
}

first=$scratch/first
tree "$first"
# (what Python leaves in a tree is no part of a release)
mkdir -p "$first/windowing/__pycache__" && touch "$first/windowing/__pycache__/left.pyc"
sleep 1
(umask 077 && tree "$scratch/second/deeper")
mapfile -t both < <("$first/release" 2>"$scratch/err")
made=${both[0]:-none}
package=${both[1]:-}
wants "a release" test -s "$first/$made"
# as_another COMMAND ..: runs a command as a user that isn't root, where this one is.
as_another() {
    if [ "$(id -u)" = 0 ]; then
        chmod 755 "$scratch"
        chown -R 65534:65534 "$scratch/second"
        setpriv --reuid=65534 --regid=65534 --clear-groups "$@"
    else
        "$@"
    fi
}
mapfile -t others < <(cd / && umask 022 && TZ=Asia/Tokyo LC_ALL=C.UTF-8 as_another "$scratch/second/deeper/release" 2>"$scratch/err")
again=${others[0]:-none}
wants "it has one name" [ "$made" = "$again" ]
wants "it has the same bytes from another folder, at another time, by another user" cmp "$first/$made" "$scratch/second/deeper/$again"
once=$(sha256sum <"$first/$made")
DIQENYU_REVIEW=/bin/true "$first/release" >"$scratch/out" 2>"$scratch/err"
status=$?
wants "it is none of a program that the environment names" [ "$status" = 0 ]
wants "it has the same bytes again" [ "$(sha256sum <"$first/$made")" = "$once" ]
wants "no name in it has an owner or a time of its own" [ -z "$(tar --list --verbose --numeric-owner --full-time --utc --file "$first/$made" | grep -v ' 0/0 .* 1970-01-01 00:00:00 ')" ]
in_order() { tar --list --file "$1" | tr / '\1' | LC_ALL=C sort --check 2>"$scratch/err"; }
wants "its names are in order" in_order "$first/$made"

# Unpacked in an empty folder, without the kit and the tree.
mkdir "$scratch/unpacked"
tar --extract --file "$first/$made" --directory "$scratch/unpacked"
folder=$scratch/unpacked/$(ls "$scratch/unpacked")
wants "the archive is one folder" [ "$(basename "$folder").tar.gz" = "$(basename "$made")" ]
wants "the sums of the programs" runs 0 "" env -C "$folder" sha256sum --check --quiet PROGRAMS
# shellcheck disable=SC2016
wants "no program is another one" runs 0 "" env -C "$folder" sh -c 'for name in review rollout view doctor; do grep -qx "program $(sha256sum <programs/$name | cut -c 1-64)" programs/$name.made || echo $name; done'
wants "the version" [ "$(basename "$made" | cut -d- -f2)" = "$(cat VERSION)" ]
wants "the report has each crate of each program" [ "$(grep -c '^crate ' "$folder/REPORT")" = "$(for name in review rollout view doctor; do ./launch --crates $name; done | wc -l)" ]
wants "it names the kit and the day" [ "$(grep -cE '^kit stand-in-kit 1$|^date 20[0-9-]{8}$' "$folder/REPORT")" = 8 ]
wants "the sums of the sources are those of the tree" runs 0 "" env -C "$first" sha256sum --check --quiet "$folder/SOURCES"
wants "no source is forgotten" [ "$(wc -l <"$folder/SOURCES")" = "$(find "$first"/crates/*/{src,specs,proofs} "$first/crates.txt" "$first/HANDLES" -type f 2>/dev/null | wc -l)" ]
wants "the kit is named" grep -q '^Proved and compiled by *stand-in-kit 1$' "$folder/RELEASE"
wants "a program runs without the kit" runs 1 "review compare a b" env -i PATH=/usr/bin:/bin "$folder/review" compare a b
for page in README.md CHANGELOG.md VERSION docs/GUIDE.md docs/PROVED.md docs/window-schema.json man/review.1 completions/_diqenyu examples/campus/expected RELEASE Makefile; do
    wants "$page is in it" test -s "$folder/$page"
done
wants "the version of a program says that it is proved" runs 0 "review of Diqenyu $(cat VERSION), proved by stand-in-kit 1" env -i PATH=/usr/bin:/bin "$folder/review" --version
for name in window wire prepare collect sweep; do
    said=$(env -i PATH=/usr/bin:/bin "$folder/$name" 2>&1 | head -n 1)
    wants "$name is in it, and finds what it is made of" [ "${said/"$name: Debian's package python3-"*" is missing"/usage:}" = "usage:" ]
done
# modules FOLDER: the files of the Python programs there.
modules() { (cd "$1" && find launching windowing showing preparing wiring sweeping -type f ! -name '*.pyc' | sort); }
wants "the Python programs are whole" runs 0 "" diff <(modules "$first") <(modules "$folder")
wants "nothing that was built stands in it but the programs" [ -z "$(find "$folder" -name out -o -name crates)" ]

# Installed from the archive, and from the tree, and taken away again.
if command -v make >/dev/null 2>&1; then
    for from in "$folder" "$first"; do
        to=$scratch/installed
        make -C "$from" install DESTDIR="$to" PREFIX=/opt/here >"$scratch/out" 2>"$scratch/err"
        wants "an installation from $from" test -x "$to/opt/here/bin/review"
        for name in review rollout view doctor; do
            wants "$name is installed" runs 1 "$name a" env -i PATH=/usr/bin:/bin "$to/opt/here/bin/$name" a
            # shellcheck disable=SC2016
            wants "it is known to be proved" runs 0 "proved" sh -c '"$1/opt/here/lib/diqenyu/launch" --state '$name' | head -n 1' sh "$to"
            wants "its page names the version" grep -q "^\.TH $name 1 .* \"Diqenyu $(cat VERSION)\" " "$to/opt/here/share/man/man1/$name.1"
            wants "its completion for bash" grep -q "^complete -F _diqenyu $name\$" "$to/opt/here/share/bash-completion/completions/$name"
            wants "its completion for zsh" grep -q "^#compdef $name=$name\$" "$to/opt/here/share/zsh/site-functions/_$name"
        done
        make -C "$from" uninstall DESTDIR="$to" PREFIX=/opt/here >"$scratch/out" 2>"$scratch/err"
        wants "what was installed is taken away" [ -z "$(find "$to" ! -type d)" ]
    done
    make -C "$folder" install DESTDIR="$scratch/named" PREFIX= PROGRAM_PREFIX=diqenyu- >"$scratch/out" 2>"$scratch/err"
    wants "an installation under other names" runs 1 "view a" "$scratch/named/bin/diqenyu-view" a
    wants "it has no other name" [ ! -e "$scratch/named/bin/view" ]
else
    echo "make isn't there: the installation is not tried"
fi

# The Debian package.
if [ -n "$package" ]; then
    wants "the package has its version" [ "$package" = "build/release/diqenyu_$(cat VERSION)_amd64.deb" ]
    wants "it has the same bytes from another folder" cmp "$first/$package" "$scratch/second/deeper/${others[1]:-none}"
    wants "its version is that of the product" runs 0 "$(cat VERSION)" dpkg-deb --field "$first/$package" Version
    wants "it recommends what prepare, collect and pages use" runs 0 "python3-textfsm, python3-netmiko, python3-jinja2, graphviz, parallel" dpkg-deb --field "$first/$package" Recommends
    dpkg-deb --raw-extract "$first/$package" "$scratch/raw"
    wants "the sums of its files" runs 0 "" env -C "$scratch/raw" md5sum --check --quiet DEBIAN/md5sums
    wants "the Python programs in it are whole" runs 0 "" diff <(modules "$first") <(modules "$scratch/raw/usr/lib/diqenyu")
    wants "a completion in it has the command's name" grep -q '^complete -F _diqenyu diqenyu-window$' "$scratch/raw/usr/share/bash-completion/completions/diqenyu-window"
    wants "each file has one" [ "$(wc -l <"$scratch/raw/DEBIAN/md5sums")" = "$(find "$scratch/raw" -path "$scratch/raw/DEBIAN" -prune -o -type f -print | wc -l)" ]
    dpkg-deb --contents "$first/$package" >"$scratch/contents"
    wants "it is root's" [ -z "$(grep -v ' root/root ' "$scratch/contents")" ]
    for path in bin/diqenyu-window bin/diqenyu-review bin/diqenyu-prepare lib/diqenyu/programs/view lib/diqenyu/windowing/window.py lib/diqenyu/launching/programs.py \
        share/man/man1/diqenyu-window.1.gz share/bash-completion/completions/diqenyu-window share/doc/diqenyu/window-schema.json \
        share/doc/diqenyu/examples/campus/expected share/doc/diqenyu/REPORT share/doc/diqenyu/changelog.gz; do
        wants "$path is in the package" grep -q " ./usr/$path\( -> .*\)\?\$" "$scratch/contents"
    done
    # A root of its own: this system under a layer that can be written, without the tree, the kit and this folder.
    cat >"$scratch/in_root" <<'ROOT'
mount -t tmpfs none "$1" && mkdir "$1/upper" "$1/work" "$1/root" &&
    mount -t overlay -o "lowerdir=/,upperdir=$1/upper,workdir=$1/work" none "$1/root" 2>/dev/null || exit 99
cp "$2" "$1/root/package.deb" && cp -R "$3" "$1/root/real" || exit 99
mount -t tmpfs none "$1/root/tmp" && mount -t tmpfs none "$1/root/opt" && mount -t proc none "$1/root/proc" && mount --bind /dev "$1/root/dev" || exit 99
[ ! -e "$1/root/$4" ] || mount -t tmpfs none "$1/root/$4" || exit 99
chroot "$1/root" /bin/bash -c 'PATH=/usr/sbin:/usr/bin:/sbin:/bin
    dpkg --force-depends --install /package.deb >/dev/null || exit 98
    cd /usr/share/doc/diqenyu/examples/campus
    export DIQENYU_PROVED=1
    diqenyu-review a b; echo "status $?"
    diqenyu-window --version; echo "status $?"
    if [ -e /real/review ]; then
        cp /real/* /usr/lib/diqenyu/programs/
        diqenyu-window old new links --questions questions | sed -n 2p; echo "status ${PIPESTATUS[0]}"
    fi
    dpkg --purge diqenyu >/dev/null; ls -d /usr/lib/diqenyu /usr/bin/diqenyu-window 2>/dev/null; echo gone'
ROOT
    mkdir "$scratch/layer" "$scratch/real"
    printf 'review a b\nstatus 1\nwindow of Diqenyu %s, schema 1\nstatus 0\n' "$(cat VERSION)" >"$scratch/wanted"
    if [ -x "${real[review]}" ] && [ -x "${real[rollout]}" ] && [ -x "${real[view]}" ] && [ -x "${real[doctor]}" ]; then
        for name in "${!real[@]}"; do
            cp "${real[$name]}" "$scratch/real/$name"
            printf 'program %s\nsources 0\nkit stand-in-kit 1\ndate 2026-01-01\n' "$(sha256sum <"$scratch/real/$name" | cut -c 1-64)" >"$scratch/real/$name.made"
        done
        printf 'To be decided: packets change (opens 4)\nstatus 1\n' >>"$scratch/wanted"
    else
        echo "the package isn't tried on an example: a program isn't there"
    fi
    echo gone >>"$scratch/wanted"
    unshare -m bash "$scratch/in_root" "$scratch/layer" "$first/$package" "$scratch/real" "$PWD" >"$scratch/said" 2>"$scratch/err"
    status=$?
    # (of the verdict its first words)
    sed -i 's/^\(To be decided: packets change (opens 4)\).*/\1/' "$scratch/said"
    if [ "$status" = 99 ] || grep -q '^unshare:' "$scratch/err"; then
        echo "the package isn't tried in a root of its own: none can be made here (unshare, overlay)"
    else
        wants "the package in a root of its own" cmp "$scratch/wanted" "$scratch/said"
        diff "$scratch/wanted" "$scratch/said"
    fi
else
    echo "dpkg-deb isn't there: the package is not tried"
fi

# Programs of other sources.
echo "// more" >>"$first/crates/view_cli/src/main.rt"
wants "a program that isn't proved of today's sources is refused" runs 70 "" "$first/release"
wants "it says which" [ "$(cat "$scratch/err")" = "release: view isn't proved of today's sources: ./prove view proves and builds it" ]
if command -v make >/dev/null 2>&1; then
    make -C "$first" install DESTDIR="$scratch/refused" >"$scratch/out" 2>"$scratch/err"
    wants "it isn't installed either" [ ! -e "$scratch/refused" ]
fi

echo "$passed passed, $failed failed"
[ "$failed" = 0 ]
