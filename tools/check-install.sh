#!/bin/sh
# Installs to folders with blanks in their names, once with DESTDIR and once without, and compares names and permissions; removes it
# all again, but for a file of somebody else's; has systemd-analyze read the unit files, and bash complete words, where these are there. It
# ends with 1 where something differs. The programs have to be built.
cd "$(dirname "$0")/.." || exit 1
top=$PWD
work="$top/out/check install"
rm -rf "$work"
mkdir -p "$work" || exit 1
umask 077
failed=0

differs() {
    echo "differs: $1"
    failed=1
}

# The files that are to be there, with their permissions.
wanted() {
    for name in compiler-words list-of-compdb mow-cc report-json; do
        [ -f "tools/$name" ] && echo "755 bin/$name"
    done
    printf '755 bin/%s\n' pump_program pumpd
    printf '644 lib/systemd/system/%s\n' pumpd.socket pumpd@.service
    for name in pump_program pumpd mow-cc; do
        [ "$name" = mow-cc ] && [ ! -f tools/mow-cc ] || echo "644 share/bash-completion/completions/$name"
    done
    command -v python3 > /dev/null || return
    [ -f tools/mow-cc ] && echo '644 share/man/man1/mow-cc.1'
    echo '644 share/man/man1/pump_program.1'
    echo '644 share/man/man8/pumpd.8'
}

# make_by HOW TARGET DESTDIR PREFIX: makes a target, with the two in the environment or among make's words. Both are always below
# out/, so that nothing is put elsewhere where one of them isn't heeded.
make_by() {
    case $1 in
    environment) DESTDIR=$3 PREFIX=$4 make -s "$2" > "$work/log" 2>&1 ;;
    words) make -s "$2" DESTDIR="$3" PREFIX="$4" > "$work/log" 2>&1 ;;
    esac
}

# installed HOW DESTDIR PREFIX: installs, and compares what is there.
installed() {
    folder=$2$3
    mkdir -p "$folder/bin" && echo other > "$folder/bin/other" || exit 1
    chmod 700 "$folder/bin"
    make_by "$1" install "$2" "$3" || { cat "$work/log"; exit 1; }
    (cd "$folder" && find . -type f ! -name other -printf '%m %P\n') | sort > "$work/got"
    wanted | sort | diff - "$work/got" || differs "what is installed in $folder"
    [ -z "$(find "$folder" -mindepth 2 -type d ! -perm 755)" ] || differs "the permissions of folders in $folder"
    [ "$(find "$folder/bin" -maxdepth 0 -printf '%m')" = 700 ] || differs "the permissions of $folder/bin, which was there"
    grep -qF "$3/bin/pumpd" "$folder/lib/systemd/system/pumpd@.service" || differs 'the place of pumpd in its unit file'
}

# removed HOW DESTDIR PREFIX: removes, and sees that only what is somebody else's is left.
removed() {
    make_by "$1" uninstall "$2" "$3" || differs "uninstall: $(cat "$work/log")"
    [ "$(cd "$2$3" && find . -type f)" = ./bin/other ] || differs "what uninstall leaves in $2$3"
}

# Has systemd read the units of a folder.
verified() {
    command -v systemd-analyze > /dev/null || { echo "systemd-analyze isn't there: the unit files weren't read"; return; }
    said=$(cd "$1" && systemd-analyze verify ./pumpd.socket ./pumpd@.service 2>&1 | grep pumpd)
    [ -z "$said" ] || differs "systemd-analyze verify: $said"
}

for how in environment words; do
    installed $how "$work/by $how" "$work/prefix"
    removed $how "$work/by $how" "$work/prefix"
done
installed words '' "$work/a prefix"
verified "$work/a prefix/lib/systemd/system"
removed words '' "$work/a prefix"
[ ! -e "$work/prefix" ] || differs "DESTDIR: $work/prefix is there"

# completed WORDS LINE..: what completes the last word of a line.
completed() {
    wanted=$1
    shift
    got=$(bash -c '. tools/completion.bash || exit 1
        COMP_WORDS=("$@") COMP_CWORD=$(($# - 1))
        function=$(complete -p "$1") && function=${function#*-F } && ${function%% *}
        echo "${COMPREPLY[*]}"' bash "$@" 2>&1)
    [ "$got" = "$wanted" ] || differs "'$*' is completed by '$got', not by '$wanted'"
}

if command -v bash > /dev/null; then
    completed 'order --help --version' pump_program ''
    completed '--help' pump_program --h
    completed '-' pump_program order ''
    completed '--hosts -j --budget' pump_program order - ''
    completed '--budget' pump_program order - --hosts localhost -j 1 ''
    completed '1 2 4 8 16 32 64' pump_program order - -j ''
    completed '' pump_program order - --hosts localhost '<' ''
    completed '' pump_program --help ''
    completed '--inetd --help --version' pumpd ''
    completed '' pumpd --inetd ''
    completed '--version' mow-cc --v
    completed 'tools/man.py' mow-cc tools/ma
    completed '' mow-cc cc ''
else
    echo "bash isn't there: the completion wasn't tried"
fi
[ $failed = 0 ] && echo 'make install and make uninstall do as they say'
exit $failed
