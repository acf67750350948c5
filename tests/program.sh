#!/usr/bin/env bash
# Runs the programs bend and unbend from end to end: the line, the file, the status and the way back; sheets with bit 2 and with angles; rows without
# bars; refusals; the longest inputs; what the system refuses; many runs at once. The last line is 'N passed, M failed'.
set -u
root=$(cd "$(dirname "$0")/.." && pwd)
bend="$root/bend"
unbend="$root/unbend"
work=$(mktemp -d)
trap 'rm -rf "$work"' EXIT
cd "$work"
passed=0
failed=0

# is WHAT FOUND EXPECTED
is() {
    if [ "$2" = "$3" ]; then
        passed=$((passed + 1))
    else
        failed=$((failed + 1))
        echo "$1: found '$2', expected '$3'"
    fi
}

hex() { od -An -v -tx1 "$1" | tr -d ' \n'; }

# bytes HEX: the bytes
bytes() { printf "$(printf '%s' "$1" | sed 's/../\\x&/g')"; }

# line SAMPLE LINE: the sample's line, a chart with the rows, columns and corners that the line names,
# and back from the chart the same line, then a line for each corner and each stroke
line() {
    rm -f bend.chart
    is "$1" "$("$bend" <"$root/samples/$1.sheet")" "$2"
    is "$1, head of the chart" "$(hex bend.chart | head -c 12)" \
        "$(printf '%s\n' "$2" | awk '{ printf "%04x%04x%04x", $12, $14, $4 }')"
    "$unbend" <bend.chart >text
    is "$1, back" "$(head -n 1 text)" "$2"
    is "$1, corners, strokes and bends" "$(grep -c '^corner ' text) $(grep -cE '^(line|level) ' text) $(grep -c ' bend$' text) $(wc -l <text)" \
        "$(printf '%s\n' "$2" | awk '{ print $4, 2 * $4 - 3, $4 - 3, 3 * $4 - 2 }')"
    rm text
}

line triangle 'part - corners 3 levels 1 umbrellas 1 stems 0 rows 2 columns 2'
is 'triangle, every byte' "$(hex bend.chart)" \
    00020002000300000000000000010000000100000001000101000000010000000000000201000100020001
is 'triangle, every word' "$("$unbend" <bend.chart)" 'part - corners 3 levels 1 umbrellas 1 stems 0 rows 2 columns 2
corner 0 row 0 columns 0 to 0
corner 1 row 1 columns 0 to 1
corner 2 row 0 columns 1 to 1
line 0 corners 0 1 side
level 0 to 1 corners 0 2 side
line 1 corners 1 2 side'
triangle=$(hex bend.chart)
line square 'part - corners 4 levels 1 umbrellas 1 stems 0 rows 2 columns 3'
square=$(hex bend.chart)
is 'square, every word' "$("$unbend" <bend.chart)" 'part - corners 4 levels 1 umbrellas 1 stems 0 rows 2 columns 3
corner 0 row 0 columns 0 to 1
corner 1 row 1 columns 0 to 0
corner 2 row 1 columns 1 to 2
corner 3 row 0 columns 2 to 2
line 0 corners 0 1 side
level 0 to 1 corners 1 2 side
line 1 corners 0 2 bend
level 1 to 2 corners 0 3 side
line 2 corners 2 3 side'
line stem 'part - corners 5 levels 1 umbrellas 1 stems 1 rows 3 columns 5'
line stem_left 'part - corners 5 levels 1 umbrellas 1 stems 1 rows 3 columns 5'
line star 'part - corners 6 levels 1 umbrellas 1 stems 1 rows 3 columns 6'
is 'star, every word' "$("$unbend" <bend.chart)" 'part - corners 6 levels 1 umbrellas 1 stems 1 rows 3 columns 6
corner 0 row 0 columns 0 to 4
corner 1 row 1 columns 3 to 3
corner 2 row 1 columns 1 to 2
corner 3 row 1 columns 0 to 0
corner 4 row 2 columns 0 to 5
corner 5 row 0 columns 5 to 5
line 0 corners 3 4 side
level 0 to 1 corners 2 3 side
line 1 corners 2 4 bend
line 2 corners 0 2 bend
level 2 to 3 corners 1 2 side
line 3 corners 0 1 side
line 4 corners 0 4 bend
level 4 to 5 corners 0 5 side
line 5 corners 4 5 side'
line two_levels 'part - corners 7 levels 2 umbrellas 2 stems 0 rows 3 columns 7'
is 'two_levels, rows of the bars' "$("$unbend" <bend.chart | sed -n 's/^corner . row \(.\) .*/\1/p' | tr -d '\n')" 0211120
line boot 'part - corners 12 levels 1 umbrellas 1 stems 1 rows 3 columns 12'
boot=$(hex bend.chart)

# a sheet that still has bit 2 (request (xii)): its four bytes are skipped, whatever they are, and line and chart are those of the sheet without it
line square_numbered 'part - corners 4 levels 1 umbrellas 1 stems 0 rows 2 columns 3'
is 'square_numbered, every byte' "$(hex bend.chart)" "$square"
for four in 00000000 00000001 00000009 00010003 7fffffff 80000000 ffffffff; do
    rm bend.chart
    is "bit 2 with $four" "$(bytes "050003$four" | "$bend")" 'part - corners 3 levels 1 umbrellas 1 stems 0 rows 2 columns 2'
    is "bit 2 with $four, chart" "$(hex bend.chart)" "$triangle"
done
for short in 050003 05000300 050003000000; do is "bit 2 with too few bytes, $short" "$(bytes "$short" | "$bend")" 'refused 2'; done
is 'bit 2 with a byte over' "$(bytes 0500030000000900 | "$bend")" 'refused 2'
is 'four bytes without bit 2' "$(bytes 01000300000009 | "$bend")" 'refused 2'
is 'bits 2 and 4' "$(bytes 15000300000009 | "$bend")" 'refused 1'

# a sheet with angles (request (xi)): line and chart are those of the sheet without them, whatever they are, and however the pairs are listed
line square_angle 'part - corners 4 levels 1 umbrellas 1 stems 0 rows 2 columns 3'
is 'square_angle, every byte' "$(hex bend.chart)" "$square"
for sample in boot_angles boot_both; do
    line $sample 'part - corners 12 levels 1 umbrellas 1 stems 1 rows 3 columns 12'
    is "$sample, every byte" "$(hex bend.chart)" "$boot"
done
for angle in 0000 0001 ffff 0708 f8f8; do
    rm bend.chart
    is "angle $angle" "$(bytes "0b000400000002$angle" | "$bend")" 'part - corners 4 levels 1 umbrellas 1 stems 0 rows 2 columns 3'
    is "angle $angle, chart" "$(hex bend.chart)" "$square"
    rm bend.chart
    is "angle $angle and bit 2" "$(bytes "0f00040002000000000009$angle" | "$bend")" 'part - corners 4 levels 1 umbrellas 1 stems 0 rows 2 columns 3'
    is "angle $angle and bit 2, chart" "$(hex bend.chart)" "$square"
done
is 'overbent' "$("$bend" <"$root/samples/overbent.sheet")" 'refused 23'
for angle in 0709 f8f7 7fff 8000; do
    is "angle $angle" "$(bytes "0b000400000002$angle" | "$bend")" 'refused 23'
    is "angle $angle and bit 2" "$(bytes "0f00040002000000000009$angle" | "$bend")" 'refused 23'
    is "angle $angle and a side" "$(bytes "0b000400000003$angle" | "$bend")" 'refused 5'
    is "angle $angle and crossing pairs" "$(bytes "0b00050000000200010003$angle$angle" | "$bend")" 'refused 7'
done
is 'bit 3 of a triangle' "$(bytes 090003 | "$bend")" 'refused 23'
is 'bits 2 and 3 of a triangle' "$(bytes 0d000300000009 | "$bend")" 'refused 23'
is 'bits 1 and 3 of a triangle' "$(bytes 0b0003 | "$bend")" 'refused 4'
for long in 0900030000 0d0003 0d0003000000090000; do is "bit 3 of a triangle, wrong length, $long" "$(bytes "$long" | "$bend")" 'refused 2'; done
for wrong in 0b000400000002 0b00040000000200 0b000400000002000000 0b00040000000200000000 0f0004000000020000; do
    is "angles of a wrong length, $wrong" "$(bytes "$wrong" | "$bend")" 'refused 2'
done
is 'an angle without bit 3' "$(bytes 0300040000000201c2 | "$bend")" 'refused 2'
is 'bit 4' "$(bytes 1b00040000000201c2 | "$bend")" 'refused 1'

# a refusal leaves the chart that is there, and writes none
before=$(hex bend.chart)
is 'crossing' "$("$bend" <"$root/samples/crossing.sheet")" 'refused 7'
is 'crossing, chart left' "$(hex bend.chart)" "$before"
is 'overbent again' "$("$bend" <"$root/samples/overbent.sheet")" 'refused 23'
is 'overbent, chart left' "$(hex bend.chart)" "$before"
rm bend.chart
is 'empty sheet' "$("$bend" </dev/null)" 'refused 1'
is 'long input' "$(head -c 100000 /dev/zero | "$bend")" 'refused 1'
is 'long triangle' "$( (cat "$root/samples/triangle.sheet"; head -c 100000 /dev/zero) | "$bend")" 'refused 2'
is 'no chart of a refused sheet' "$(ls)" ''

# rows without bars (request (v)): none is drawn, but a chart handed in may have them and tells its own rows. Document 01's chart of the triangle, with
# the empty row 1; the same with the most rows that there are; the triangle as it is drawn, with an empty row behind the others
placed=00030002000300000000000000020000000100000001000101000000010000000000000201000100020001
is 'an empty row, every word' "$(bytes "$placed" | "$unbend")" 'part - corners 3 levels 1 umbrellas 1 stems 0 rows 3 columns 2
corner 0 row 0 columns 0 to 0
corner 1 row 2 columns 0 to 1
corner 2 row 0 columns 1 to 1
line 0 corners 0 1 side
level 0 to 1 corners 0 2 side
line 1 corners 1 2 side'
is '65,533 empty rows' "$(bytes "ffff${placed:4}" | "$unbend" | head -n 1)" 'part - corners 3 levels 1 umbrellas 1 stems 0 rows 65535 columns 2'
is 'an empty last row' "$(bytes "0003${triangle:4}" | "$unbend" | head -n 1)" 'part - corners 3 levels 1 umbrellas 1 stems 0 rows 3 columns 2'
is 'no empty row' "$(bytes "$triangle" | "$unbend" | head -n 1)" 'part - corners 3 levels 1 umbrellas 1 stems 0 rows 2 columns 2'

# another's chart of the square: the first line tells the part, the rows, columns, bars and strokes are those of the chart
is 'another chart, every word' "$(bytes 000300060004000000000005000200000005000100000001000100030004010000000100050100000002000001000000030003010001000200010000020003 | "$unbend")" \
    'part - corners 4 levels 1 umbrellas 1 stems 0 rows 3 columns 6
corner 0 row 0 columns 0 to 5
corner 1 row 2 columns 0 to 5
corner 2 row 1 columns 0 to 1
corner 3 row 1 columns 3 to 4
line 0 corners 0 2 bend
line 1 corners 1 2 side
level 1 to 3 corners 2 3 side
line 3 corners 0 3 side
line 5 corners 0 1 side'
# the same chart with the columns of two strokes exchanged
is 'two columns exchanged' "$(bytes 000300060004000000000005000200000005000100000001000100030004010000000100050100000002000101000000030003010001000200000000020003 | "$unbend" | tail -n 5)" \
    'line 0 corners 1 2 side
line 1 corners 0 2 bend
level 1 to 3 corners 2 3 side
line 3 corners 0 3 side
line 5 corners 0 1 side'

# charts that are refused: the square's with a byte changed, and two of our own
refused() { is "$2" "$(bytes "$3" | "$unbend")" "refused $1"; }
refused 14 'a byte short' "${square%??}"
refused 14 'a byte over' "${square}00"
refused 14 'two corners' "${square:0:10}02${square:12}"
refused 14 'bit 1 of a map byte' "${square:0:60}03${square:62}"
refused 15 'a bar past the rows' "${square:0:2}01${square:4}"
refused 15 'a bar past rows of which one is empty' "${placed:0:2}02${placed:4}"
refused 16 'a stroke twice' "${square:0:82}01${square:84}"
refused 17 'an upright in a level gap' 000300050004000000000004000200000004000100000001000100030004010000000100020100000002000001000000030003010001000200010000020003
refused 18 'a side missing' 00030003000400000000000100020000000000000002000200020001000201000000010000000000000201000000030001000001000301000200030002
is 'empty chart' "$("$unbend" </dev/null)" 'refused 14'
is 'long chart' "$(head -c 100000 /dev/zero | "$unbend")" 'refused 14'
is 'long square' "$( (bytes "$square"; head -c 100000 /dev/zero) | "$unbend")" 'refused 14'
is 'a sheet' "$("$unbend" <"$root/samples/square.sheet")" 'refused 14'
is 'nothing written' "$(ls)" ''

# charts drawn in many ways, and damaged ones: every text is the model's
mkdir texts
CARGO_TARGET_DIR="${CARGO_TARGET_DIR:-$root/target/cargo}" cargo run --quiet --release --manifest-path "$root/tests/Cargo.toml" --bin texts -- texts
read=0
for chart in texts/*.chart; do
    "$root/target/bin/unbend" <"$chart" >text
    is "$chart" "$(cmp text "${chart%.chart}.text" 2>&1)" ''
    [ "$(head -c 4 text)" != part ] || read=$((read + 1))
done
is 'most charts are read' "$((read >= 65))" 1
rm -r text texts

# the longest sheet, 1,024 corners with bit 2 and angles, and one byte more; the longest chart, a fan with every stroke upright, and one byte more
hex16() { printf '%04x' "$@"; }
fan() { hex16 1024; for ((k = 2; k < 1023; k++)); do hex16 0 $k; done; }
stairs() {
    local i
    hex16 1024 2047 1024 0 0 2046
    for ((i = 1; i < 1024; i++)); do hex16 $i $((2 * i - 2)) $((2 * i)); done
    for ((i = 1; i < 1024; i++)); do printf 01; hex16 0 $i $((2 * i - 1)); done
    for ((i = 1; i < 1023; i++)); do printf 01; hex16 $i $((i + 1)) $((2 * i)); done
}
fan_above() { hex16 1024; for ((k = 1; k < 1022; k++)); do hex16 $k 1023; done; }
zigzag() { hex16 1024; for ((k = 1; k < 512; k++)); do hex16 $k $((1024 - k)) $k $((1023 - k)); done | head -c 8168; }
# within 128 KiB of stack: fans at either corner, strips to and fro, and the 1,024 corners of every shape, whole and halved and drawn at random
narrow() {
    rm -f bend.chart
    is "$1, line" "$( (ulimit -s 128; exec "$root/target/bin/bend") <"$2")" "$("$root/target/bin/bend" <"$2")"
    is "$1, chart" "$( (ulimit -s 128; exec "$root/target/bin/bend") <"$2" | head -c 5) $(head -c 6 bend.chart | tail -c 2 | od -An -tx1 | tr -d ' ')" 'part  0400'
}
bytes "03$(fan)" >fan.sheet
bytes "03$(fan_above)" >fan_above.sheet
bytes "03$(zigzag)" >zigzag.sheet
for shape in fan fan_above zigzag; do narrow "$shape" "$shape.sheet"; done
mkdir sheets
CARGO_TARGET_DIR="${CARGO_TARGET_DIR:-$root/target/cargo}" cargo run --quiet --release --manifest-path "$root/tests/Cargo.toml" --bin sheets -- sheets
for sheet in sheets/*_1024.sheet; do narrow "$(basename "$sheet")" "$sheet"; done
# the sheets of every shape and size, and damaged ones: every line and every chart is the model's
for sheet in sheets/*.sheet; do
    rm -f bend.chart
    is "$sheet, line" "$("$root/target/bin/bend" <"$sheet")" "$(cat "${sheet%.sheet}.line")"
    if [ -f "${sheet%.sheet}.chart" ]; then
        is "$sheet, chart" "$(cmp bend.chart "${sheet%.sheet}.chart" 2>&1)" ''
    else
        is "$sheet, no chart" "$(ls bend.chart 2>/dev/null)" ''
    fi
done
rm -rf sheets fan.sheet fan_above.sheet zigzag.sheet bend.chart

# bent LAST: 1,021 angles, the last one as it is named
bent() { for ((k = 1; k < 1021; k++)); do hex16 $((k % 1801)); done; printf '%s' "$1"; }
long_line='part - corners 1024 levels 1 umbrellas 1 stems 0 rows 2 columns 1023'
bytes "0f$(fan)0000002a$(bent f8f8)" >longest.sheet
is 'longest sheet, bytes' "$(wc -c <longest.sheet)" 6133
is 'longest sheet' "$("$bend" <longest.sheet)" "$long_line"
mv bend.chart longest.chart
# the sheets of 1,024 corners with fewer fields: the map byte, what follows the pairs, the length
while read -r map four angles length; do
    bytes "$map$(fan)${four#-}$([ "$angles" = - ] || bent "$angles")" >long.sheet
    is "long sheet $map, bytes" "$(wc -c <long.sheet)" "$length"
    is "long sheet $map" "$("$bend" <long.sheet)" "$long_line"
    is "long sheet $map, chart" "$(cmp longest.chart bend.chart 2>&1)" ''
    is "long sheet $map and a byte" "$( (cat long.sheet; printf x) | "$bend")" 'refused 2'
    is "long sheet $map, a byte short" "$(head -c -1 long.sheet | "$bend")" 'refused 2'
done <<'END'
03 - - 4087
07 0000002a - 4091
0b - 0708 6129
0f ffffffff 0000 6133
END
is 'longest sheet with an angle out of range' "$(bytes "0f$(fan)0000002a$(bent 0709)" | "$bend")" 'refused 23'
for more in 1 2 3 4 5 6 1000 60000; do
    is "longest sheet and $more bytes" "$( (cat longest.sheet; head -c $more /dev/zero) | "$bend")" 'refused 2'
done
# a longer input gets the refusal of its first bytes
for head in '00 1' '110400 1' '0f0002 3' '0f0401 3' '0d0400 4' '0f0003 4' '090003 2' '0f0400 2' '030400 2'; do
    is "6,134 bytes from ${head% *}" "$( (bytes "${head% *}"; head -c 6133 /dev/zero) | head -c 6134 | "$bend")" "refused ${head#* }"
done
rm long.sheet
bytes "$(stairs)" >longest.chart
is 'longest chart, bytes' "$(wc -c <longest.chart)" 20465
is 'longest chart' "$("$unbend" <longest.chart | sed -n 1p)" 'part - corners 1024 levels 1 umbrellas 1 stems 0 rows 1024 columns 2047'
is 'longest chart, stack' "$( (ulimit -s 320; exec "$root/target/bin/unbend") <longest.chart | sed -n 1p)" \
    'part - corners 1024 levels 1 umbrellas 1 stems 0 rows 1024 columns 2047'
is 'longest chart and a byte' "$( (cat longest.chart; printf x) | "$unbend")" 'refused 14'
rm longest.sheet longest.chart bend.chart

# the status: 0 for a line, 1 for a refusal, 2 when the system refused
# ends WHAT STATUS TEXT COMMAND...: what a command prints, then on standard error up to the first colon, then its status
ends() {
    local what=$1 status=$2 text=$3 found
    shift 3
    found=$({ "$@" 2>&1 >&3 | head -n 1 | cut -d: -f1; echo "status ${PIPESTATUS[0]}"; } 3>&1)
    is "$what" "$found" "$text"$'\n'"status $status"
}
sheet="$root/samples/square.sheet"
said='part - corners 4 levels 1 umbrellas 1 stems 0 rows 2 columns 3'
ends 'a line' 0 "$said" "$bend" <"$sheet"
ends 'a text' 0 "$(bytes "$square" | "$unbend")" "$unbend" <bend.chart
ends 'a refusal' 1 'refused 7' "$bend" <"$root/samples/crossing.sheet"
ends 'a refused chart' 1 'refused 14' "$unbend" <"$sheet"

# an input that comes in pieces is read to its end
pieces() { head -c 2 "$1"; sleep 0.1; tail -c +3 "$1" | head -c 7; sleep 0.1; tail -c +10 "$1"; }
is 'a sheet in pieces' "$(pieces "$root/samples/square_numbered.sheet" | "$bend")" "$said"
is 'a chart in pieces' "$(pieces bend.chart | "$unbend" | tail -n 1)" "$("$unbend" <bend.chart | tail -n 1)"
rm bend.chart

# a read that fails, and an input that is closed, are no refusals: nothing is printed, nothing is written
ends 'a folder for a sheet' 2 'standard input' "$bend" </
ends 'a folder for a chart' 2 'standard input' "$unbend" </
closed() { "$@" <&-; }
ends 'no input' 2 'standard input' closed "$bend"
ends 'no chart' 2 'standard input' closed "$unbend"
is 'nothing written after a failed read' "$(ls)" ''

# a line that cannot be printed is said; the chart is in its place
for program in "$bend" "$root/target/bin/bend"; do
    status=2
    [ "$program" = "$bend" ] || status=0
    is 'full output' "$("$program" <"$sheet" 2>&1 >/dev/full | cut -d: -f1)" 'standard output'
    is 'full output, chart' "$(hex bend.chart)" "$square"
    rm bend.chart
    is 'no output' "$("$program" <"$sheet" 2>&1 >&- | cut -d: -f1)" 'standard output'
    is 'no output, chart' "$(hex bend.chart)" "$square"
    "$program" <"$sheet" >&- 2>&-
    is 'no output, status' $? $status
    rm bend.chart
done
is 'full output of unbend' "$(bytes "$square" | "$unbend" 2>&1 >/dev/full | cut -d: -f1)" 'standard output'

# what the system refuses: said with the file's name, no line, status 2, and nothing left behind
cramped() { (ulimit -f 0 && trap '' XFSZ && exec "$bend" <"$sheet"); }
ends 'a disk that is full' 2 'bend.chart' cramped
is 'a disk that is full, nothing left' "$(ls)" ''
mkdir bend.chart
ends 'a folder in the way' 2 'bend.chart' "$bend" <"$sheet"
is 'a folder in the way, nothing else left' "$(find . -mindepth 1)" './bend.chart'
rmdir bend.chart
gone() { mkdir gone && cd gone && rmdir ../gone && "$root/target/bin/bend" <"$sheet"; }
is 'a folder that is gone' "$( (gone) 2>&1 | cut -d: -f1)" 'bend.chart'

# the permissions are those that the umask gives any new file
for mask in 000 022 027 077; do
    (umask $mask && "$bend" <"$sheet" >line && touch other)
    is "umask $mask" "$(stat -c %a bend.chart)" "$(stat -c %a other)"
    rm bend.chart line other
done

# many runs at once, with links and leftovers lying about: every chart is whole, one of those that were drawn, and nothing else is touched
echo mine >victim
leftovers='bend.chart.new bend.chart.tmp bend.chart.aaaaaaaaaaaaaaaa'
for name in $leftovers; do ln -s victim "$name"; done
echo left >bend.chart.bbbbbbbbbbbbbbbb
charts=$'\n'
samples='triangle square stem star two_levels boot'
for sample in $samples; do
    rm -f bend.chart
    "$bend" <"$root/samples/$sample.sheet" >line
    charts+="$(hex bend.chart)"$'\n'
done
torn=0
for ((round = 0; round < 60; round++)); do
    rm -f bend.chart
    [ $((round % 3)) -ne 0 ] || ln -s victim bend.chart
    for sample in $samples; do "$root/target/bin/bend" <"$root/samples/$sample.sheet" >line & done
    for ((look = 0; look < 4; look++)); do
        [ ! -f bend.chart ] || [ -L bend.chart ] || case $charts in *$'\n'"$(hex bend.chart)"$'\n'*) ;; *) torn=$((torn + 1)) ;; esac
    done
    wait
    case $charts in *$'\n'"$(hex bend.chart)"$'\n'*) ;; *) torn=$((torn + 1)) ;; esac
done
is 'charts torn by runs at once' $torn 0
is 'a link is not written through' "$(cat victim)" mine
is 'the file of a run that was killed' "$(cat bend.chart.bbbbbbbbbbbbbbbb)" left
rm line
is 'nothing left by runs at once' "$(ls)" "$(printf '%s\n' bend.chart bend.chart.bbbbbbbbbbbbbbbb $leftovers victim | sort)"

echo "$passed passed, $failed failed"
[ "$failed" -eq 0 ]
