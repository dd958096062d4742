#!/bin/sh
# Counts, in src/, the places that docs/DESIGN-PASS.md speaks of. Run at the top of the repository; with a word it lists those of one point.
cd "$(dirname "$0")/.." || exit 1
src() { find crates -path 'crates/*/src/*' -name '*.rt' -not -path '*/out/*' | sort; }
places() {
    case $1 in
    1a) src | xargs grep -nE '== ROWS|[a-z] < ROWS \{|^ *(short|standing): bool' ;;
    1b) src | xargs grep -nE 'Ok\([a-z_]+\) => (return )?(Ok|Some)\(|Err\([a-z_]+\) => (return )?Err\(|None => (return )?None|None => Err|Err\(_\) => (Err|None)|Some\([a-z_]+\) => Ok' ;;
    1c) src | xargs grep -nE '^ *(pub\(crate\) |pub )?(fn|enum) .*(Front|Reader|State\b)|[(, ](kind|number): u8' | grep -nE 'enum|kind: u8|number: u8' ;;
    2) src | xargs grep -nE 'fn (has_sheet|has_agreement|refuse|family_number|horner|agreements|add_places|extended_by_all|smallest_from|are_below|has_bit|with_bit|either_bits|count_bits|clear_words|rows_used|height|binary_code|block|header|over_binary|over_prime|run_[a-z]+|list_places|takes|number_at|put_one|offer|largest_of|check_message|check_listed|compare|does_score|random_sheet|compare_one)\b' ;;
    3) src | xargs grep -nE '^ *for [a-z_]+ in \(?[a-z_0-9]+\.\.' ;;
    4) src | xargs grep -nE 'fn (print_fault|read_number|read_letter|is_known|item_of|body_length|refused_again|modulus_of|put_choice|put_refusal)\b|assert!.*== .* && .* ==' ;;
    5) src | xargs grep -hE '^ *(requires|ensures)' | sed -E 's/^ *//' | sort | uniq -c | awk '$1 >= 3' ;;
    6) src | xargs grep -nE '(points|values|xs|ys): (&(mut )?\[u8\]|\[u8; MAX_PAIRS\])|out: &mut \[u8\], at: usize|^ *held: usize' ;;
    7) src | xargs grep -nE '\bdyn |: fn\(|Box<' ;;
    8) find crates -path '*/proofs/*' -name '*.antt' -not -path '*/out/*' -exec cat {} + ;;
    esac
}
if [ -n "$1" ]; then places "$1"; exit; fi
for p in 1a 1b 1c 2 3 4 5 6 7 8; do
    printf '%s %s\n' "$p" "$(places $p | wc -l)"
done
