#!/bin/sh
# Counts, in the checkout that is named (or in this one), the lines at which the older language may show: what each
# line is, docs/DESIGN-PASS.md says. With `-l` it prints the lines.
list=no
if [ "$1" = -l ]; then list=yes; shift; fi
cd "${1:-.}" || exit 1

places() {
    name=$1
    shift
    if [ $list = yes ]; then
        echo "== $name"
        grep -rnE "$@" crates/*/src --include=*.rt
    else
        echo "$name: $(grep -rnE "$@" crates/*/src --include=*.rt | wc -l)"
    fi
}

places '1a own enums' '^ *(pub(\(crate\))? )?enum [A-Z]'
places '1b numbers or pairs for answers' -e '-> .*(Result<.*, (u32|usize|\(u32, usize\))>|Option<Option|Result<Result|\(\[u32; 16\], u32\))' -e 'Registers\(\[u32; 16\], u32\)'
places '1c numbers for kinds' '(hold|cause|kind|scheme): u32|const (LOW_HALF|HIGH_HALF|COUNTER|CAUSE|COUNT): u32'
places '2a the four schemes one after another' '<?(ReorderBuffer|BypassBuffer|HistoryBuffer|FutureFile)>'
places '2b impls of one trait' '^impl(<.*>)? (Recovery|Naming<u8>) for'
places '3a while and loop' '^ *(while|loop)\b'
places '3b indices by range or enumerate' 'for [a-z_]+ in [0-9a-z_]+\.\.|enumerate\(\)'
places '4a conversions by a method' 'fn (number|from_number|from_word|[a-z]+_number|cause_from_number|status_by|place|answer_of|other_answer|wide|counter_number)\((self|number|word|cause|hold|outcome|answer|counter)'
places '4b names by a method' "&'static str"
places '4c texts by temporary strings' 'format!\(in'
places '4d derives without equality' '^ *#\[derive\((Clone, Copy|Drop)\)\]'
places '5a soundness in clauses' 'Sound \(machine_of'
places '5b setups by four parameters' 'data_length(: u32)?,$'
places '6a counts beside arrays' 'count: usize|: \[Option<Difference>; 6\]|\[u64; 120\]'
places '7a switches on a test' '\bStop::'
