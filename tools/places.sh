#!/bin/sh
# Lists the places that docs/DESIGN-PASS.md counts, each with the number of its point; `places.sh -c` counts them only.
set -eu
unset CDPATH
cd "$(dirname "$0")/.."

# A point, what is sought, and a pattern over the code.
seek() {
    point=$1 what=$2 pattern=$3
    found=$(grep -rnE --include='*.rt' -e "$pattern" crates/*/src || true)
    if [ -z "$found" ]; then n=0; else n=$(printf '%s\n' "$found" | wc -l); fi
    printf '%s %s: %d\n' "$point" "$what" "$n"
    [ "$counts" = 1 ] || [ -z "$found" ] || printf '%s\n' "$found" | sed 's/^/    /'
}

counts=0
[ "${1:-}" != -c ] || counts=1

seek 1a 'variants of own enums that stand for nothing, a refusal or a second kind of value' '^ +(Nothing|Refused\(u8\)|Stops\(.*\)|Undefined|Stall|Waits\(Tag\)|Malformed),'
seek 1b 'refusals and flags beside a value' '^ +(pub )?(refusal|stop): u8,|ok: bool,|refusal: u8, number'
seek 1c 'functions that answer a number for a kind, an operation or a refusal' '^ *(pub )?(pub\(crate\) )?fn .*-> u8( |$)'
seek 1d 'constants that are numbers for kinds and refusals' '^ *pub const [A-Z_]+: u8'
seek 1e 'tests of a number for no' '(refusal|stop|why) [!=]= 0|\.ok\b'
seek 1f 'operations as numbers' '(operation|op): u8|Op\((Reg|Tag), u8'
seek 1g 'choices by a number' 'match (kind|code|rule|operation|r\.b0|head\.b0) \{'
seek 3a 'loops by while or loop' '^ *(while |loop |let .*loop \{)'
seek 3b 'loops by for' '^ *for '
seek 4a 'tests of numbers inside a tuple struct' '\.0 [!=]= [a-z]+\.0|\bt\.0 [!=]= '
seek 4b 'values taken out of a field for the next line alone' '^ *let [a-z]+ = [a-z]+(\.[a-z]+)+;$'
seek 4c 'fields that are spelt twice' '^ *([a-z0-9]+): \1,$'
seek 4d 'numbers printed one by one' '\b(field|line)\(rt, '
seek 5a 'the counter handed on beside the count and the table' 'c: Counter, n: usize|^ *c: Counter,$|let c = state\.counter'
seek 5b 'an output and a place in it, handed on side by side' 'out: &mut \[u8\], at: usize|^ +out: &mut \[u8\],$'
seek 5c 'requirements over the table, the registers and the count' 'requires \{.*(Table|Stands|File|Ready)'
seek 6a 'rows with the number of those that count' '\[\[u64; 3\]\], n: usize|\[\[u64; 3\]\], rf: &(mut )?\[u64\], n: usize'
seek 6b 'what was written, told by a length' 'written: usize|bytes::first|fn first\(b'
seek 6c 'flags by number' 'made: \[bool; TAGS\]'
seek 7a 'switches on a rule or a command' 'match (rule|command) \{'
seek 7b 'functions for the parts that are timed' '^pub fn (runs|drains|executions)\('
printf '8a answers and invariants: %d files, %d lines\n' "$(find crates/*/proofs -mindepth 2 -name '*.antt' | wc -l)" "$(find crates/*/proofs -mindepth 2 -name '*.antt' -exec cat {} + | wc -l)"
printf '8b lemma files: %d files, %d lines\n' "$(find crates/*/proofs -maxdepth 1 -name '*.antt' | wc -l)" "$(find crates/*/proofs -maxdepth 1 -name '*.antt' -exec cat {} + | wc -l)"
