#!/usr/bin/env bash
# Whether two trees compile to the same machine code: docs/same_code.sh OLD_TREE NEW_TREE. In each, `rt ci` has been run
# at the top and `rt lib` in crates/solarbasil. Of the five programs the code and the constants are compared, of the
# library its whole object.
set -e
old=$1
new=$2
work=$(mktemp -d)
trap 'rm -rf "$work"' EXIT
for program in books close show edges replay; do
    for section in .text .rodata .data; do
        for tree in old new; do
            objcopy -O binary --only-section=$section "${!tree}/crates/$program/out/$program" "$work/$tree"
        done
        test -s "$work/old"
        cmp "$work/old" "$work/new"
        echo "$program $section: the same $(stat -c %s "$work/old") bytes"
    done
done
for tree in old new; do
    ar p "${!tree}/crates/solarbasil/out/libsolarbasil.a" solarbasil.o > "$work/$tree"
done
test -s "$work/old"
cmp "$work/old" "$work/new"
echo "solarbasil.o: the same $(stat -c %s "$work/old") bytes"
