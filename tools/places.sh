#!/bin/sh
# Counts the places of docs/DESIGN-PASS.md in the sources of a commit, by the points of
# that page: tools/places.sh [-v] [COMMIT]. With -v the lines themselves.
verbose=
if [ "$1" = -v ]; then verbose=yes; shift; fi
commit=${1:-HEAD}

count() {
    found=$(git grep -nE -e "$2" "$commit" -- 'crates/*/src/*.rt' | sed "s/^$commit://" | grep -vE ':[0-9]+: *//')
    if [ -n "$found" ]; then n=$(printf '%s\n' "$found" | wc -l); else n=0; fi
    printf '%4d  %s\n' "$n" "$1"
    if [ -n "$verbose" ] && [ "$n" -gt 0 ]; then printf '%s\n' "$found" | sed 's/^/        /'; fi
}

echo "1. numbers and flags in place of Option, Result and enums ($commit)"
count 'a refusal as a number'                  'REFUSED_[A-Z]+: u32'
count 'an answer beside a value'               '^ *(pub )?answer: u32,$'
count 'a function that answers 32 bits'        '-> u32( \{)?$'
count 'a flag beside a value'                  '^ *(pub )?made: bool,$'
count 'a kind as a constant'                   '^(pub )?const (UNMADE|ODD|EVEN|STEP|PLAN|DEFAULT|COARSE|MEANT): '
count 'a kind as a parameter of a number'      '(horizontal: u32|output: u8|stored: u8|kind: usize)'
echo "2. twins"
count 'two ways to the tendency, and above it' 'fn (smooth_tendency(_lane)?\(a: i32|unsqueeze(_lane)?\(avg: i32|residual(_lane)?\(difference: i32)'
count 'along and across'                       'fn (split_along|split_across|along|across|lines_of|size_of|side|sides)\('
count 'by the bytes of a side'                 'fn (short|strip)_(channel|field)\('
count 'arrays of another number'               'fn (side_at|byte_at|put_numbers|put_bytes)\('
count 'the range kept, all of it tested'       'fn (range_has_sides|range_keeps_shifts)(<.a>)?\('
count 'a list filled channel by channel'       'fn (next_list|tidied|list_of|with_channel)\('
count 'the least of two, the residuals start'  'fn (meant|within|smaller|residuals_at)\('
count 'a stretch with its first pair, rows'    'fn (squeeze_stretch|first_stretch|first_pairs|last_pairs|squeeze_pairs)\('
count 'samples copied from slice to slice'     'fn (fetch|move_part|copy_row|copy)\('
count 'a test that runs its cases'             'fn (replay|replay_in|kind|agrees)(<|\()'
echo "3. loops"
count 'a while that counts'                    '^ *while [a-z0-9_ <>=+().&|!-]* \{$'
count 'a for over indices'                     '^ *for [a-z_]+ in [^{]*\.\.'
echo "4. by hand"
count 'equality'                               'fn (same_list|same_steps|is_at|same|holds)\('
count 'conversion'                             'fn (narrow|from_bits|word|long|low|high|upper|wrapping_add|wrapping_sub|wrapping_abs)\('
count 'printing'                               'fn (digit|seven_digits|vain_digits|put_number|put_word|put_two|put_numbered|put_step|put_channel|put_shifts|put_direction|put_place)\('
echo "5. what travels together"
count 'arrays of a list or of places lent'     ': &(.a )?(mut )?\[(u32|u8|usize); 256\]'
count 'slices of a run lent together'          '(starts|made): &(mut )?\[(usize|bool)\]'
count 'version, list and steps'                'version: u32, list: ChannelList, steps: Steps|^    steps: Steps,$'
count 'lines, size and their samples'          'lines: usize, size: usize, xs: &'
count 'averages, residuals and outer lines'    'avg: &(.a )?\[i32\]'
count 'a count at most its limit, asked'       'requires .*(count ≤ max_channels|count ≤ max_steps)'
echo "6. parallel arrays"
count 'an array of one field of the entries'   '^ *(pub )?[a-z]+: \[(u32|u8|u16|usize|bool); (256|64)\],$'
count 'a local array of one field'             'let mut [a-z_]+ = \[[a-zA-Z0-9_]+; (256|64)\];'
echo "7. switches"
count "an enum that says what to do"               "(enum (Counted|StoredStart)|which: Counted|rule: StoredStart)"
count 'a flag that says which call'            '(is_record|are_records|rebuilds): bool'
