#!/bin/sh
# Makes the man pages below out/man, has tools/man.py read them again, and, where they are there, groff and man. It ends with 1
# where one says something of a page, or a line is wider than 80.
cd "$(dirname "$0")/.." || exit 1
if ! command -v python3 > /dev/null; then
    echo "python3 isn't there, so there are no man pages to check"
    exit 0
fi
rm -rf out/man
python3 -B tools/man.py --check out/man > /dev/null || exit 1
failed=0
for page in out/man/*.[18]; do
    if command -v groff > /dev/null; then
        said=$(groff -man -Tutf8 -ww -z "$page" 2>&1)
    else
        said=
    fi
    if command -v man > /dev/null; then
        said=$said$(LC_ALL=C MANWIDTH=80 man --warnings -P cat -l "$page" 2>&1 | awk 'length > 80 { print "a wide line: " $0 }')
    fi
    [ -z "$said" ] && continue
    echo "$page: $said"
    failed=1
done
command -v groff > /dev/null || echo "groff isn't there: the man pages were checked by tools/man.py alone"
exit $failed
