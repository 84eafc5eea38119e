#!/bin/sh
# Lists the older forms in crates/*/src, one question after the other, each with its count: what docs/DESIGN-PASS.md counts.
# With the word `counts` it prints the counts alone. What it lists is read by hand: a hit is a place only where reading says so.
cd "$(dirname "$0")/.." || exit 1

ask() {
  hits=$(grep -rnE "$2" crates/*/src --include='*.rt')
  [ -n "$3" ] && hits=$(printf '%s\n' "$hits" | grep -vE "$3")
  count=$(printf '%s' "$hits" | grep -c .)
  printf '%s: %s\n' "$1" "$count"
  [ "$mode" = counts ] || printf '%s\n' "$hits"
}

mode=$1
ask '1.1 functions that hand out a number for nothing' '^pub fn [a-z0-9_]+\(\) -> u8$'
ask '1.2 flags among the parameters' '^(pub )?(pub\(crate\) )?fn .*: bool[,)]|^    [a-z]+: bool,$' 'pub yes'
ask '1.3 kinds by number' '[(]kind: usize|self, kind: usize|Order[(]usize'
ask '1.4 a number or a tuple in place of an Option or a Result' '^    pub level: u16,|type Verdict = [(]u8|enum Search'
ask '1.5 refusals, or nothing, handed on by hand' 'return (Err|None)\b|(None|Some[(].*[)]|Err[(].*[)]|Ok[(]_[)]|_) => (None|false|true|Err[(].*),?$|None => true'
ask '3.1 loops over a range' 'for [a-z_]+ in .*[.][.]'
ask '3.2 loops that are no for' '^ *(while|loop)\b'
ask '3.3 loops over items' 'for [a-z(), _]+ in [^.]*([.][a-z_]+[(].*)? [{]$' '[.][.]'
ask '4.1 conversions, numbers and comparisons by hand' 'fn (number|returned|layer|kind_of|narrow|widen|is_same|letter_of|mark_answer|move_answer|report_answer|value_or_zero|is_marked|digit_number|parse_number|parse_command)\b'
ask '4.2 text written by hand' 'fn put_(byte|number|field|level|fact|order)\b'
ask '5.1 tables and pairs that travel as parameters' '(held|visited): &(mut )?\[bool|state: &(mut )?\[usize; 64\]|reach: &(mut )?\[InReach; 256\]|levels: &(mut )?\[AtLevel; 256\]|scratch: &mut|(buffer: &mut \[u8\], at)|earlier: (usize|Fact),'
ask '5.2 clauses that require a fact of an argument' '^ +requires '
ask '6.1 tables with scratch, and packed places' 'let mut (scratch|levels|reach|possible) = \[|/ 256|% 256|[*] 256|WIDTH|place_of'
ask '6.2 parallel vectors, and vectors by place' '^    (pub |pub[(]crate[)] )?(sizes|starts|present|needs|effects|orders): Vec<'
ask '7.1 a step picked by a flag or a text' 'whole|blanks'
