#!/bin/sh
# Installs the programs, scripts, man pages, completion and unit files, or removes just these: install.sh install|uninstall.
# PREFIX, /usr/local where it isn't set, is where they will be found; DESTDIR is put in front of it while they are installed. A program
# that isn't built is built by `rt`. What else the host or tools/ lacks is said on standard error, and passed over.
# Status: 0 done; 1 a program can't be built, or a file can't be put or removed; 2 wrong words.
cd "$(dirname "$0")/.." || exit 1
PREFIX=${PREFIX:-/usr/local}
programs='pump_program pumpd'
scripts='mow-cc compiler-words list-of-compdb report-json'
work=out/install
newline='
'

lacks() { echo "install: $*" >&2; }

# Builds a program that isn't there.
build() {
    if [ -x "crates/$1/out/$1" ]; then
        if [ -n "$(find crates/*/src -name '*.rt' -newer "crates/$1/out/$1" | head -n 1)" ]; then
            lacks "crates/$1/out/$1 is older than a source; \`make demo\` builds it anew"
        fi
        return 0
    fi
    if ! command -v rt > /dev/null; then
        lacks "$1 isn't built, and the Rattle kit, which builds it, is lacking: rt isn't on the path"
        return 1
    fi
    lacks "$1 isn't built: proving what it stands on and building it, which may take more than an hour"
    (cd "crates/$1" && rt run -- --version) > "$work/$1.log" 2>&1 && [ -x "crates/$1/out/$1" ] && return 0
    cat "$work/$1.log" >&2
    lacks "$1 can't be built"
    return 1
}

# The place of a script in tools/, with the end of its name that tells its language or without; nothing where it isn't there.
script() {
    for file in "tools/$1" "tools/$1.py" "tools/$1.sh"; do
        [ -f "$file" ] && echo "$file" && return
    done
}

# Makes the man pages.
pages() {
    if command -v python3 > /dev/null; then
        python3 -B tools/man.py "$work" > /dev/null || lacks 'the man pages are not all there'
    else
        lacks "python3, which makes the man pages and runs scripts, isn't there"
    fi
}

# Makes the unit files, with the place of pumpd as systemd reads it.
units() {
    place=$(printf '%s' "$PREFIX/bin/pumpd" | sed 's/[\\"]/\\&/g; s/%/%%/g')
    case $PREFIX in *[!A-Za-z0-9/._+-]*) place=\"$place\" ;; esac
    place=$(printf '%s' "$place" | sed 's/[\\&|]/\\&/g')
    cp packaging/pumpd.socket "$work" && sed "s|^ExecStart=[^ ]*|ExecStart=$place|" 'packaging/pumpd@.service' > "$work/pumpd@.service"
}

# put MODE FILE PATH: installs a file below the prefix, where it is there; folders that are there stay as they are.
put() {
    target=$DESTDIR$PREFIX/$3
    if [ ! -f "$2" ]; then
        lacks "$3 is passed over: there is no ${2:-tools/${3##*/}}"
        return 0
    fi
    folder=$(dirname "$target")
    [ -d "$folder" ] || install -d -m 755 "$folder" || return 1
    install -m "$1" "$2" "$target" && echo "$target"
}

# remove MODE FILE PATH: removes what `put` installs.
remove() {
    target=$DESTDIR$PREFIX/$3
    [ -e "$target" ] || [ -h "$target" ] || return 0
    rm "$target" && echo "removed $target"
}

# Does with each file what a command says.
each() {
    for name in $programs; do
        "$1" 755 "crates/$name/out/$name" "bin/$name" || return 1
    done
    for name in $scripts; do
        "$1" 755 "$(script "$name")" "bin/$name" || return 1
    done
    for page in pump_program.1 mow-cc.1 pumpd.8; do
        "$1" 644 "$work/$page" "share/man/man${page##*.}/$page" || return 1
    done
    for name in $programs mow-cc; do
        [ "$1 $name" = 'put mow-cc' ] && [ -z "$(script mow-cc)" ] && continue
        "$1" 644 tools/completion.bash "share/bash-completion/completions/$name" || return 1
    done
    for unit in pumpd.socket 'pumpd@.service'; do
        "$1" 644 "$work/$unit" "lib/systemd/system/$unit" || return 1
    done
}

case $PREFIX in
*"$newline"*) lacks 'PREFIX has a line feed'; exit 2 ;;
/*) ;;
*) lacks "PREFIX has to begin with /: '$PREFIX'"; exit 2 ;;
esac
case $1 in
install)
    rm -rf "$work"
    mkdir -p "$work" || exit 1
    for name in $programs; do
        build "$name" || exit 1
    done
    pages
    units && each put
    ;;
uninstall) each remove ;;
*)
    echo 'usage: install.sh install|uninstall, with PREFIX and DESTDIR in the environment' >&2
    exit 2
    ;;
esac
