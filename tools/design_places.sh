#!/bin/sh
# Lists, for each point of docs/DESIGN-PASS.md, the lines of src/ among which its places stand; with `-c` only how many.
# What of them is a place is said on that page.
cd "$(dirname "$0")/../crates" || exit 1
count=$1
point() {
    name=$1
    shift
    found=$(grep -rnE "$@" --include='*.rt' */src)
    if [ "$count" = -c ]; then
        printf '%-34s %s\n' "$name" "$(printf '%s' "$found" | grep -c .)"
    else
        printf '== %s\n%s\n' "$name" "$found"
    fi
}
point '1 enums' '^\s*(pub )?enum '
point '1 flags in types and parameters' '^\s*(pub )?[a-z_]+: bool,'
point '1 numbers for kinds' '\b(kind|level|rights|number|size|slot|register|group|code)\b: u(8|16|32|size)'
point '1 conversions to numbers' 'fn (number|bus_number|column|digit)\b'
point '2 instances of one shape' '(first|second|one|two|instruction|data)_?[a-z]*\(|^impl From<Result'
point '2 arms by kind' 'Kind::(Instruction|Data)\)? =>'
point '3 loops' '^\s*(for|while|loop)\b'
point '3 elements by computed index' '\[[a-z]+ \+ [0-9]\]|\[(at|i|slot)\]|\[[^]]*\.\.[^]]*\]'
point '4 conversions by name' 'fn (numbered|of|made|is|layer_name|digit|number|bus_number)\b'
point '4 printing' 'fn [a-z_]*_text\b|fn (one|two|mode|form|layer_name)\b|fmt::Display'
point '5 facts said of a part' 'ensures.*(shape_by|\(?left (self|result)|upcoming)'
point '5 facts of the memory of a twin' 'memory\.(new|old|now|ghost_name)|\.memory\.now'
point '5 parameters that travel' '(epn: u32, twc: u32|twc: u32, rpn: u32|base: u32, mask: u32|problem: bool,|address: u32, space: u32|access: Access, address: u32|asker: Asker)'
point '6 arrays' ': \[[^]]*; '
point '7 closures and steps' '\|[a-z_, ]+\||impl Fn|dyn |answer: Result<'
