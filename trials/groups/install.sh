# shellcheck shell=bash disable=SC2154
# Group `install`: what ./install and ./package put on a machine, and what ./install --remove takes away. Both work in a copy of what they need
# of the repository, with the program that is tried.

# The copy, without the program.
copy_tree() {
    mkdir -p tree/crates/tm_arguments/src tree/crates/tmx/out
    cp -r "$here"/../{install,package,README.md,CHANGELOG.md,docs,completions,example,include,library,python} tree
    cp "$here/../crates/tm_arguments/src/table.rt" tree/crates/tm_arguments/src
}

# All that stands in a folder: modes, names, links and sums of files.
stands() {
    (set -o pipefail
        cd "$1" && find . -printf '%m %y %p %l\n' | sort -k 3 && find . -type f -exec sha256sum {} + | sort -k 2) || no "$1 can't be read"
}

# What is wrong with the program below a prefix, on the example there.
runs_there() {
    local page=share/doc/tmx/example
    (cd "$1" && ./bin/tmx packets --settings $page/settings.toml --report "$folder/r" $page/pass.rec) >given 2>&1 || echo "status $?"
    cmp given expected/packets 2>&1
    cmp r expected/report 2>&1
}

# The links of the pages below a folder that lead nowhere.
loose_links() {
    PYTHONPATH=$here python3 -B - "$1" <<'END'
import pathlib, promises, sys
pages = sorted(pathlib.Path(sys.argv[1]).rglob("*.md"))
links = sum(len(promises.LINK.findall(page.read_text())) for page in pages)
print(*(f"{page}: {wrong}" for page in pages for wrong in promises.wrong_links(page)), sep="\n", end="")
print(f"{len(pages)} pages with {links} links" if links < 200 else "", end="")
END
}

# The name of a trial, and a manual page: a reader shows it, with these words, without bold and underlined letters.
page_is_read() {
    local word
    if command -v mandoc >/dev/null; then
        mandoc -T ascii "$2" >page 2>/dev/null
    elif man --version | grep -q '^man '; then
        man -l "$2" >page 2>/dev/null
    elif command -v groff >/dev/null; then
        zcat -f "$2" | GROFF_NO_SGR=1 groff -mandoc -T ascii >page 2>/dev/null
    else
        skip 1 "$1" "no mandoc, man or groff"
        return
    fi
    sed -i $'s/.\b//g' page
    tell "$1" "$(for word in "EXIT STATUS" summary stop-after max_packet; do grep -q -- "$word" page || echo "no $word"; done)"
}

# in_the_way NAME PREFIX FILE: an installation is refused, since this file is somebody else's.
in_the_way() {
    gives "$1" 1 "install: $PWD/$2/$3 is there, and ./install didn't put it there: move it away first" "tree/install --prefix $2"
}

# stays NAME PREFIX FILE: a removal says that this file stays.
stays() {
    gives "$1" 0 "install: $PWD/$2/$3 stays: it was changed, so remove it yourself" "tree/install --remove --prefix $2"
}

# What is refused: status, and one line that says why; and nothing is made.
refused_installs() {
    local usage="usage: ./install [--remove] [--prefix DIR]" words
    for words in all --prefi --prefix "--prefix ''" "--prefix --remove" "--prefix=~/p" "--remove now"; do
        gives "install with the words $words" 2 "$usage" "tree/install $words"
    done
    gives "package with a word" 2 "usage: ./package" "tree/package all"
    gives "install before the program is built" 1 "install: neither the program nor the library is built: \
run ./build or ./build lib first, in $PWD/tree" "tree/install --prefix p"
    cp "$tmx" tree/crates/tmx/out/tmx
    gives "removal of what wasn't installed" 1 "install: ./install put nothing below $PWD/p" "tree/install --remove --prefix p"
    touch file
    gives "install below a file" 1 "mkdir: cannot create directory '$PWD/file': Not a directory" "tree/install --prefix file/p"
    tell "install where no folder can be made" \
        "$(tree/install --prefix /proc/tmx 2>&1 | grep -q "^mktemp: .*'/proc/\.tmx" || echo "that isn't said")"
    gives "install with help that can't be written" 1 "" "tree/install --prefix p --help >/dev/full 2>/dev/null"
    gives "install with usage that can't be written" 2 "" "tree/install --prefix p all 2>/dev/full"
    tell "what is refused makes nothing" "$(find . -name p -o -name '.tmx*')"
}

# Installs below a prefix with a space, from another folder, twice, and takes all away.
by_prefix() {
    local to="a place/p"
    mkdir -p "a place/p/share"
    stands "a place" >before
    gives "install below a prefix" 0 "" "umask 077; tree/install --prefix '$to'"
    tell "the installed program runs on the installed example" "$(runs_there "$to")"
    page_is_read "the installed manual page can be read" "$to/share/man/man1/tmx.1"
    tell "each link of an installed page leads somewhere" "$(loose_links "$to" 2>&1)"
    tell "the list has the sums of what was installed" "$(cd "$to" && sha256sum --check --quiet "$list" 2>&1
        find . -type f ! -path "./$list" -printf '%P\n' | sort | diff - <(sed -n 's/^[^#]*  //p' "$list"))"
    tell "all may read what was installed, and run the program" \
        "$(find "$to" \( -type d -o -path "$to/bin/tmx" \) ! -perm 755 -o -type f ! -path "$to/bin/tmx" ! -perm 644)"
    stands "$to" >first
    gives "install once more" 0 "" "cd / && '$PWD/tree/install' --prefix='$PWD/$to'"
    tell "install once more: all is the same" "$(stands "$to" | diff first - 2>&1)"
    gives "removal" 0 "" "tree/install --remove --prefix '$to'"
    tell "removal: all is as it was" "$(stands "a place" | diff before - 2>&1)"
    gives "removal once more" 1 "install: ./install put nothing below $PWD/$to" "tree/install --remove --prefix '$to'"
}

# Files of somebody else: they are neither written over nor taken away.
foreign_files() {
    local page=share/doc/tmx/README.md
    mkdir -p q/bin
    echo foreign >q/bin/tmx
    in_the_way "install over a foreign file" q bin/tmx
    tell "install over a foreign file: it stays, and nothing else is made" \
        "$(echo foreign | cmp - q/bin/tmx 2>&1; find q -mindepth 1 ! -path 'q/bin*')"
    rm q/bin/tmx
    gives "install where it stood" 0 "" "tree/install --prefix q"
    echo foreign | tee q/share/doc/tmx/example/foreign >q/$page
    in_the_way "install over a file that was changed" q $page
    stays "removal beside foreign files" q $page
    tell "removal beside foreign files: they stay, and nothing else" \
        "$(find q ! -type d | sort | diff - <(printf '%s\n' q/$page q/share/doc/tmx/example/foreign))"
    in_the_way "install where a changed file stayed" q $page
}

# A link where the program stood, to that program: it is somebody else's too. So is one in the place of a folder, and what a
# list names outside of the prefix.
foreign_link() {
    tree/install --prefix k >/dev/null
    mv k/bin/tmx copy
    ln -s "$PWD/copy" k/bin/tmx
    in_the_way "install over a link to the program" k bin/tmx
    mv k/share/man man
    ln -s ../../man k/share/man
    sha256sum copy | sed 's:  :&../:' >>"k/$list"
    stays "removal beside a link to the program" k bin/tmx
    tell "removal beside a link to the program: it stays, and nothing else" \
        "$(find k ! -type d ! -lname "$PWD/copy" ! -path k/share/man; [ -L k/bin/tmx ] || echo "no link"; cmp "$tmx" copy 2>&1)"
}

# A newer installation in the place of an older one, whose list has the form that it had before: nothing of it stays.
newer() {
    tree/install --prefix n >/dev/null
    sed -Ei 's/^# /folder - /; s/^(\w{64})  /file \1 /' "n/$list"
    echo "file 0 share/doc/tmx/README.md" >>"n/$list"
    stands n >before
    mv tree/docs/FRAMES.md tree/docs/NEWER.md
    echo newer >>tree/README.md
    tell "install of newer files without room: all is as it was" \
        "$({ (ulimit -f 20; tree/install --prefix n) && echo "it is installed"; } 2>/dev/null; stands n | diff before - 2>&1)"
    gives "install of newer files" 0 "" "tree/install --prefix n"
    tree/install --prefix fresh >/dev/null
    tell "install of newer files: all is as in a new place" "$(stands n | diff - <(stands fresh) | grep '^[<>]' | grep -v installed-files)"
    mv tree/docs/NEWER.md tree/docs/FRAMES.md
    gives "removal of newer files" 0 "" "tree/install --remove --prefix n"
    tell "removal of newer files: nothing is left" "$(ls -d n 2>/dev/null)"
}

# What is wrong with an installation that a signal ends once it has called a tool so many times. Its list names what it
# put, which can be taken away.
wrong_end() {
    local status=0
    echo "calls=0; $1() { command $1 \"\$@\" || return; [ \$((calls += 1)) != $2 ] || kill -TERM \$\$; }" >stop
    BASH_ENV=$PWD/stop tree/install --prefix e >out 2>&1 || status=$?
    [ "$status:$(cat out)" = 1: ] || echo "it doesn't end there: status $status: $(cat out)"
    echo "$list" >known
    [ ! -e "e/$list" ] || sed -n 's/^[^#]*  //p' "e/$list" >>known
    [ ! -e e ] || find e -type f -printf '%P\n' | grep -vxFf known
    [ ! -e "e/$list" ] || { tree/install --remove --prefix e >/dev/null; } 2>&1
    find . -maxdepth 1 -name e -o -name '.tmx*'
}

# What is wrong with an installation in the place of an older one that a signal ends once mv was called so many times: the program
# is there at each time, and the next installation and its removal leave nothing of both.
wrong_upgrade() {
    local status=0
    tree/install --prefix e >/dev/null
    echo newer | tee -a tree/README.md >tree/docs/NEWER.md
    echo "calls=0; mv() { command mv \"\$@\" || return; [ -x $PWD/e/bin/tmx ] || echo gone; [ \$((calls += 1)) != $1 ] || kill -TERM \$\$; }" >stop
    BASH_ENV=$PWD/stop tree/install --prefix e >out 2>&1 || status=$?
    rm tree/docs/NEWER.md
    [ "$status:$(cat out)" = 1: ] || echo "it doesn't end there: status $status: $(cat out)"
    tree/install --prefix e >/dev/null || echo "it isn't installed again"
    find e -type f ! -path "e/$list" -printf '%P\n' | sort | diff - <(sed -n 's/^[^#]*  //p' "e/$list")
    tree/install --remove --prefix e >/dev/null
    ls -d e 2>/dev/null
}

# Installations that are ended: where pages are staged, at the first folders, at the list, in front of files, and behind one.
ended() {
    local place
    for place in 1 2 3 20; do
        tell "an installation over an older one that is ended at mv $place leaves a program" "$(wrong_upgrade $place)"
        rm -rf e
    done
    for place in "find 1" "mktemp 1" "mkdir 2" "mv 1" "mv 2" "mv 6"; do
        # shellcheck disable=SC2086
        tell "an installation that is ended by a signal at $place leaves nothing" "$(wrong_end $place)"
        rm -rf e
    done
}

# Installs below DESTDIR, and takes all away in another place.
by_destdir() {
    mkdir -p stage/s/opt
    gives "install below DESTDIR" 0 "" "DESTDIR=$PWD/stage/s tree/install --prefix /opt/tmx"
    tell "the program below DESTDIR runs" "$(runs_there stage/s/opt/tmx)"
    mv stage moved
    gives "removal below another DESTDIR" 0 "" "DESTDIR=moved/s tree/install --remove --prefix /opt/tmx"
    tell "removal below another DESTDIR: nothing is left" "$(find moved -mindepth 3; [ -d moved/s/opt ] || echo "its folder isn't there")"
}

# The library goes along where it was made, and alone where the program wasn't.
with_library() {
    local files=(include/tmx.h lib/libtmx.a lib/libtmx.so lib/libtmx.so.0 lib/pkgconfig/tmx.pc)
    mkdir tree/out
    echo archive >tree/out/libtmx.a
    echo shared | tee tree/out/libtmx.so >tree/out/libtmx.so.0
    mv tree/crates/tmx/out/tmx built
    gives "install of the library alone" 0 "" "tree/install --prefix l"
    tell "install of the library alone: it is there, and nothing of the program" \
        "$(cd l && find . -path ./share/doc -prune -o -type f -printf '%P\n' | sort | diff - <(printf '%s\n' "${files[@]}"))"
    mv built tree/crates/tmx/out/tmx
    tree/install --prefix l >/dev/null
    tell "the library is installed where it was made" \
        "$(cd l && find lib include -type f | sort | diff - <(printf '%s\n' "${files[@]}"))"
    tell "a page's link to the header leads there" \
        "$(grep -qF "[include/tmx.h](../include/tmx.h)" l/share/doc/tmx/docs/LIBRARY.md || echo "no link"; loose_links l 2>&1)"
    if command -v pkg-config >/dev/null; then
        tell "pkg-config finds it" "$(PKG_CONFIG_PATH=$PWD/l/lib/pkgconfig pkg-config --cflags --libs tmx 2>&1 |
            tr ' ' '\n' | grep -cx -- "-[IL]$PWD/l/.*" | grep -vx 2)"
    else
        skip 1 "pkg-config finds it" "no pkg-config"
    fi
    tree/install --remove --prefix l >/dev/null
    tell "removal of the library: nothing is left" "$(ls -d l 2>/dev/null)"
    rm -r tree/out
}

# The words of the completions, and their syntax where their shells are there.
completions() {
    local shell place=$1/share
    local files=("$place/bash-completion/completions/tmx" "$place/zsh/site-functions/_tmx" "$place/fish/vendor_completions.d/tmx.fish")
    part completions.py python3 "$here/completions.py" "$tmx" "${files[@]}"
    for shell in bash zsh fish; do
        if command -v $shell >/dev/null; then
            tell "$shell reads its completion" "$($shell -n "${files[0]}" 2>&1)"
        else
            skip 1 "$shell reads its completion" "no $shell"
        fi
        files=("${files[@]:1}")
    done
}

# The machine code of the program below a prefix, and its constants, in a file.
code_of() {
    objdump -s -j .text -j .rodata "$1/bin/tmx" >code || echo "objdump doesn't read $1/bin/tmx"
    tail -n +4 code >"$2"
}

# The packages: what is in them, and that they run.
as_packages() {
    local file python wheel newest
    sed -i '0,/^## \[/s//## [Unreleased]\n\n### Added\n\n- what is not\n  released\n\n&/' tree/CHANGELOG.md
    file=tree/out/tmx_$version-1_$(dpkg --print-architecture).deb
    python=tree/out/python3-tmx_$version-1_all.deb
    gives "package" 0 "" "tree/package"
    wheel=$(sed -n '$s/^/tree\//p' out)
    printf '%s\n' "${file#tree/}" "${python#tree/}" "${wheel#tree/}" >names
    tell "the packages' names" "$(diff out names; grep -vxE "tree/out/tmx-$version-py3-none-manylinux_2_[0-9]+_[a-z0-9_]+\.whl" <<<"$wheel")"
    mkdir packed
    cp "$file" "$python" "$wheel" packed
    gives "package once more" 0 "" "tree/package"
    tell "package once more: the same octets" "$(diff -r packed tree/out 2>&1)"
    of_debian "$file"
    with_python "$python"
    newest=$(objdump -T root/usr/bin/tmx | grep -oE 'GLIBC_[0-9.]+' | sort -Vu | tail -n 1 | tr . _)
    tell "the wheel's name has the C library that the program needs" "$(grep -q -- "-manylinux_${newest#GLIBC_}_" <<<"$wheel" || echo "$wheel isn't of $newest")"
    part wheel.sh "$here/wheel.sh" "$wheel" expected/packets
}

# The package for Debian.
of_debian() {
    tell "the package's fields" "$(dpkg-deb -f "$1" Package Version Depends Maintainer 2>&1 |
        grep -cE "^(Package: tmx|Version: $version-1|Depends: libc6 \(>= 2\.[0-9]+\)(, [a-z0-9.+-]+)*|Maintainer: .+ <.+>)$" | grep -vx 4)"
    dpkg-deb -x "$1" root
    tell "the program of the package runs" "$(runs_there root/usr)"
    page_is_read "the manual page of the package can be read" root/usr/share/man/man1/tmx.1.gz
    zcat root/usr/share/doc/tmx/changelog.Debian.gz >debian
    tell "the changelog of the package names its version" "$(head -n 1 debian | grep -vF "tmx ($version-1) ")"
    sed -nE 's/^(- |  )//p' tree/CHANGELOG.md >said
    sed -nE 's/^  (\* |  )//p' debian >given
    tell "the changelog of the package says all, also what isn't released" "$(diff said given 2>&1)"
    tree/install --prefix plain >/dev/null
    tell "the program of the package has the code that was built" "$(code_of plain plain.code; code_of root/usr packed.code; cmp plain.code packed.code 2>&1)"
    tell "the package has what is installed" "$(diff -rq plain root/usr 2>&1 | grep -vE "$differs")"
    tell "each link of a page of the package leads somewhere" "$(loose_links root/usr 2>&1)"
}

# What is wrong with the picture of the example that this program in Python draws, of the package.
drawn_by() {
    (cd / && env -u TMX PATH="$folder/root/usr/bin:$PATH" PYTHONPATH="$folder/root/usr/lib/python3/dist-packages" \
        python3 -B "$@" --title "The example recording" --settings "$s" "$rec") >given 2>&1 || echo "status $?"
    cmp given "$here/../docs/loss_map.svg" 2>&1
}

# The package for Debian with the package for Python, beside the program of the other.
with_python() {
    tell "the fields of the package for Python" "$(dpkg-deb -f "$1" Package Version Architecture Depends 2>&1 |
        grep -cxE "Package: python3-tmx|Version: $version-1|Architecture: all|Depends: python3 \(>= 3\.11\), tmx \(= $version-1\)" | grep -vx 4)"
    dpkg-deb -x "$1" root
    tell "python3 -m tmx of the package" "$(drawn_by -m tmx map)"
    tell "tmx-map of the package" "$(drawn_by "$folder/root/usr/bin/tmx-map")"
    dpkg-deb -e "$1" control
    tell "the package for Python is compiled where it is installed, and leaves nothing" \
        "$({ grep -L "py3compile -p python3-tmx" control/postinst; grep -L "py3clean -p python3-tmx" control/prerm; } 2>&1)"
}

install() {
    local version differs list=share/doc/tmx/installed-files
    names
    version=$("$tmx" --version | sed -n '1s/^tmx //p')
    # What Debian wants otherwise: no symbols, names of changelogs, which README links to, what is compressed, zsh's folder; and it keeps lists itself.
    differs="^Only in .*: (tmx\.1(\.gz)?|site-functions|vendor-completions|CHANGELOG\.md|changelog(\.Debian)?\.gz|copyright|installed-files)$"
    differs="$differs|^Files plain/(bin/tmx|share/doc/tmx/README.md) and root/usr/.* differ$"
    copy_tree
    refused_installs
    by_prefix
    foreign_files
    foreign_link
    newer
    ended
    by_destdir
    with_library
    tree/install --prefix for_shells >/dev/null
    completions for_shells
    if command -v dpkg-deb >/dev/null && command -v strip >/dev/null; then
        as_packages
    else
        skip 18 "the packages" "no dpkg-deb, or no strip"
    fi
    plan 83
}
