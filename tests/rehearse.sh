#!/usr/bin/env bash
# rehearse.sh PROGRAM DIR: runs the rehearsing program on every DIR/NAME.call and compares what it prints, byte for byte,
# with NAME.timeline, as a file and through a pipe in pieces of odd sizes, and does the same with the plan that stands above
# each ladder; then on the same call in other words; then on texts that are wrong, each with the one line that it must get;
# then on calls with blocks, which the answerer tells in words, or which get one line; then on calls of strangers, whose CM
# is sent as it is given, or gets one line; then on calls whose CI is damaged or names another function, or whose CI or CM is heard without octets; then on random plans, on every call cut off at every byte and on random bytes,
# which must get a plan and a ladder or one line, and an end of the program that is no crash. Prints what differs; exits
# with 1 on a difference and with 2 where there is nothing to run.
set -uo pipefail

program=${1:?the rehearsing program}
calls=${2:?the folder of the calls}
. "$(dirname "$0")/programs.sh"
pieces=(1 7 2 31 1 64 10)

heading='   ms  caller                                                                         answerer'

# The names, as the texts list them.
lines='caller answerer call Te damaged blocks cadence answers'
functions='H.324 textphone videotex fax-sent fax-received data'
modes='V.34 V.34-half-duplex V.32bis V.22bis V.17 V.29-half-duplex V.27ter V.26ter V.26bis V.23 V.23-half-duplex V.21'
modes+=' PCM-analogue PCM-digital V.91'
other_modes='V.32 V.22'
parts='home wants sends'
wanted='LAPM access'
qualities='cellular digital'
access='caller-cellular answerer-cellular digital-network'

# The mistakes, by their numbers in plans.
mistakes=(
    ''
    "expected a line that begins with one of: $lines"
    "expected a function: $functions; a modulation: $modes $other_modes; or one of: $parts $qualities; behind wants: $wanted"
    "expected the home function, one of: $functions"
    "expected what the end wants, one of: $wanted"
    "expected the function of the call, one of: $functions"
    'expected Te in milliseconds, a number from 500 to 5000'
    'expected the end whose bits are damaged, one of: caller answerer'
    'expected a damaged bit, a number from 0 to 8999'
    'expected a damaged bit, a number from 0 to 8999'
    'expected the end of the line'
    'this is said already'
    "expected a function before the modulations that belong to it, one of: $functions"
    "expected a function that the end has, one of: $functions"
    'the home function is not among the functions of the end'
    'PCM-analogue and PCM-digital are offered beside V.34 alone'
    "the text ends without a line 'caller'"
    "the text ends without a line 'answerer'"
    "the text ends without a line 'call'"
    'the caller has not the function of the call'
    'expected an octet, two hex digits'
    'expected an octet, two hex digits'
    'a CM that is sent as it is stands alone in the line of the caller, and no function is called'
    'expected how many CI sequences an on period has, a number from 3 to 20'
    'expected how many bit times an off period has, a number from 120 to 600'
    'expected when the answerer answers, in milliseconds, a number from 200 to 20000'
)

# Why CM cannot be made with the blocks of a plan.
too_many='the blocks do not fit into a CM of 64 octets'
no_blocks='the octets are not blocks: a block is longer than what remains, or a code does not fit in it'

# Why the CM of a stranger is not sent: blocks beside it, or a refusal, whose number follows.
with_blocks='a CM that is sent as it is takes no blocks'
unsent='the CM that is given cannot be sent, refusal'

# text TEXT: the input of the next runs, with the escapes of printf %b.
text() {
    printf '%b' "$1" >"$work/input"
}

# same NAME TEXT: the call of an example in other words has its plan and its ladder.
same() {
    text "$2"
    check "$program" "$1" "$work/input" "$calls/v32bis.timeline" "${pieces[@]}"
}

# understood NAME TEXT PLAN: a text, and the plan that must stand above its ladder.
understood() {
    text "$2"
    printf '%b\n' "$3" >"$work/expected"
    "$program" <"$work/input" | plan >"$work/printed"
    compare "$1" "$work/expected" "${PIPESTATUS[0]}"
}

# plan: what stands above the empty line of its input; all of it where there is none.
plan() {
    sed '/^$/,$d'
}

# refuses NAME TEXT PLACE NUMBER: a text and the line that it must get: its place, as "line 2, 'x'", and the number of the mistake. A
# mistake of the whole text has no place.
refuses() {
    text "$2"
    printf '%s\n' "${3:+$3: }${mistakes[$4]}" >"$work/expected"
    check "$program" "$1" "$work/input" "$work/expected" "${pieces[@]}"
    tried[$4]=1
}

# unmade NAME OCTETS LINE: a call with these octets for its blocks, and the one line that it must get.
unmade() {
    text "${whole}blocks $2"
    printf '%s\n' "$3" >"$work/expected"
    check "$program" "$1" "$work/input" "$work/expected" "${pieces[@]}"
}

# unsendable NAME OCTETS LINE: a call of a stranger with these octets for its CM, or with more lines behind them, and the one line that it
# must get.
unsendable() {
    text "$answerer\ncaller sends $2"
    printf '%s\n' "$3" >"$work/expected"
    check "$program" "$1" "$work/input" "$work/expected" "${pieces[@]}"
}

# sends NAME OCTETS ROW: a call of a stranger with these octets for its CM. They must stand in the plan above its ladder, and in the ladder
# the row must say what the caller sends, without its arrow.
sends() {
    local status
    text "$answerer\ncaller sends $2"
    "$program" <"$work/input" >"$work/first"
    status=$?
    printf 'caller    sends %s\nanswerer  data V.32bis V.22bis V.26ter, home data\nTe        1000\ncadence   5 450\nanswers   200\n' "${2^^}" >"$work/expected"
    plan <"$work/first" >"$work/printed"
    compare "$1" "$work/expected" "$status"
    printf '%s\n' "$3" >"$work/expected"
    sed -n 's/^ 2300  menu        \(CM[^-]*[^ -]\) *-*>*$/\1/p' "$work/first" >"$work/printed"
    compare "$1, as it is sent" "$work/expected" 0
}

# tells NAME LINES ROW..: a call with these lines behind it, and what must stand in rows of the answerer below a CM that it hears: the
# rows without a time, up to the column of the answerer, from the first on that is no octet of CM.
tells() {
    local row
    text "$whole$2"
    for row in "${@:3}"; do printf '%s\n' "$row"; done >"$work/expected"
    "$program" <"$work/input" | awk '
        substr($0, 1, 5) != "     " { below = / hears$/; field = 0; next }
        below && / (block [0-9]+:|its field )/ { field = 1 }
        below && field { if (length($0) > 85) print "a row of " length($0) " columns"; sub(/^ */, ""); print }
    ' >"$work/printed"
    compare "$1" "$work/expected" "${PIPESTATUS[0]}"
}

# stands NAME LINES ROW: a call with these lines behind it, and a row that must stand in its ladder, blank for blank.
stands() {
    text "$whole$2"
    printf '%s\n' "$3" >"$work/expected"
    "$program" <"$work/input" | grep -x -F "$3" >"$work/printed"
    compare "$1" "$work/expected" "${PIPESTATUS[0]}"
}

# calls NAME TEXT ROW..: a call, and what its ladder must say of CI, sent and heard: the words of its rows.
calls() {
    local row
    text "$2"
    for row in "${@:3}"; do printf '%s\n' "$row"; done >"$work/expected"
    "$program" <"$work/input" | sed -nE '/ CI /{s/^ *[0-9]+ +//;s/ -+>$//;s/ +/ /g;p}' >"$work/printed"
    compare "$1" "$work/expected" "${PIPESTATUS[0]}"
}

# quiet NAME ANSWERS TIME: a call that is answered at a time, and when its caller is quiet.
quiet() {
    text "${whole}answers $2"
    printf '%s\n' "$3" >"$work/expected"
    "$program" <"$work/input" | sed -nE 's/^ *([0-9]+)  quiet$/\1/p' >"$work/printed"
    compare "$1" "$work/expected" "${PIPESTATUS[0]}"
}

# survives NAME: keeps what the text $work/input gets, whatever it is, for `sound`.
survives() {
    runs=$((runs + 1))
    {
        printf '== %s\n' "$1"
        "$program" <"$work/input" || printf 'ended with %s\n' $?
    } >>"$work/kept"
}

# sound: all that `survives` kept is one line, or a plan and a ladder: its rows in columns, at most 100 of them, in the order of time,
# no blanks at their ends, and how the call ended in the last line.
sound() {
    LC_ALL=C awk -v heading="$heading" -v too_many="$too_many" -v no_blocks="$no_blocks" -v with_blocks="$with_blocks" -v unsent="$unsent" '
        function wrong(why) { printf "%s: %s\n", name, why }
        function ends(line,    choice, ended) {
            choice = " (item [1-9][0-2]? \\(V\\.[^()]*\\)|PCM \\([^()]*\\))"
            ended = "(left|gave up, late|cleared, no mode is shared|ended, the choice was not offered"
            if (line ~ "^both ends " ended "|go on with" choice ")$") return 1
            ended = ended "|goes on with" choice ")"
            if (line ~ "^the ends differ: the caller " ended "; the answerer " ended "$") return 1
            return line == "the call is not over after 30 seconds"
        }
        function look(    i, row, clock, before, stranger) {
            if (name == "" || n == 1 && line[1] ~ /^(line [0-9]+, (at its end|\047.*\047): |the text )./) return
            if (n == 1 && (line[1] == too_many || line[1] == no_blocks || line[1] == with_blocks)) return
            if (n == 1 && index(line[1], unsent " ") == 1 && substr(line[1], length(unsent) + 2) ~ /^[345]$/) return
            for (i = 1; i <= n; i++) if (line[i] ~ /[ \t\r]$/) return wrong("blanks at the end of " line[i])
            if (line[1] !~ /^caller    / || line[2] !~ /^answerer  /) return wrong("no ends: " line[1])
            stranger = line[1] ~ /^caller    sends( [0-9A-F][0-9A-F])+$/
            if (!stranger && line[3] !~ /^call      /) return wrong("no call: " line[3])
            i = stranger ? 3 : 4
            if (line[i] !~ /^Te        [0-9]+$/) return wrong("no Te: " line[i])
            if (line[++i] !~ /^cadence   [0-9]+ [0-9]+$/) return wrong("no cadence: " line[i])
            if (line[++i] !~ /^answers   [0-9]+$/) return wrong("no answer: " line[i])
            for (i++; line[i] ~ /^blocks   ( [0-9A-F][0-9A-F])+$/; i++) ;
            for (; line[i] ~ /^damaged   (caller|answerer)( [0-9]+)+$/; i++) ;
            if (line[i] != "" || line[i + 1] != heading) return wrong("no heading: " line[i])
            for (i += 2; i < n; i++) {
                row = line[i]
                if (length(row) > 100) return wrong("a row of " length(row) " columns: " row)
                clock = substr(row, 1, 5)
                if (clock == "     ") continue
                if (clock !~ /^ *[0-9]+$/ || clock + 0 < before + 0) return wrong("no time: " row)
                if ((substr(row, 8, 11) ~ /^[a-z]+ *$/) == (substr(row, 87) ~ /^[a-z]+$/)) return wrong("not one end: " row)
                before = clock
            }
            if (!ends(line[n])) wrong("no ending: " line[n])
        }
        /^== / { look(); name = substr($0, 4); n = 0; split("", line); next }
        { line[++n] = $0 }
        END { look() }
    ' "$work/kept" >"$work/unsound"
    cat "$work/unsound"
    differ=$((differ + $(wc -l <"$work/unsound")))
}

command -v "$program" >/dev/null || { printf '%s: no program\n' "$program"; exit 2; }
for call in "$calls"/*.call; do
    [ -f "$call" ] || { printf '%s: no calls\n' "$calls"; exit 2; }
    check "$program" "$call" "$call" "${call%.call}.timeline" "${pieces[@]}"
    plan <"${call%.call}.timeline" >"$work/plan"
    check "$program" "the plan of $call" "$work/plan" "${call%.call}.timeline" "${pieces[@]}"
done

caller='caller data V.34 V.32bis V.22bis V.21, wants LAPM'
answerer='answerer data V.32bis V.22bis V.26ter'
whole="$caller\n$answerer\ncall data\n"

same 'one blank between words' "$whole"
same 'the order of the lines is free' "call data\nTe 1000\n$answerer\n$caller\n"
same 'the last line feed is missing' "$caller\n$answerer\ncall data"
same 'CR LF' "$caller\r\n$answerer\r\ncall data\r\n"
same 'comments, empty lines, blanks' "# a call\n\n  \t\n$caller# the logger\n\t$answerer #, V.21\n \tcall \t data \n#end"
same 'upper and lower case' "CALLER Data v.34 V.32BIS v.22Bis V.21 Wants lapm\nAnswerer DATA v.32bis v.22bis V.26TER\nCALL dAtA\ntE 1000"
same 'no commas' "${caller//,/}\n$answerer\ncall data\n"
same 'commas everywhere' ",${caller// /,,}, ,\n,\n,${answerer// /,},\ncall,data,\n,"
same 'modes in another order' "caller data V.21 V.34 V.22bis V.32bis wants LAPM\nanswerer data V.26ter V.22bis V.32bis\ncall data"
same 'what is wanted first' "caller wants LAPM data V.34 V.32bis V.22bis V.21\n$answerer\ncall data"
same 'the home function written out' "$caller, home data\nanswerer home data, data V.32bis V.22bis V.26ter\ncall data"
same 'Te written out' "${whole}Te 1000\n"
same 'Te with leading zeros' "Te 001000\n$whole"
same 'other names of modes' "${caller//bis/}\nanswerer data V.32 V.22 V.26ter\ncall data"
text "damaged answerer 0\n${whole}damaged caller 8999, 0\nDamaged Answerer 00 0\n"
sed '/^answers/a damaged   caller 0 8999\ndamaged   answerer 0' "$calls/v32bis.timeline" >"$work/expected"
check "$program" 'damage that hits no bit that counts' "$work/input" "$work/expected" "${pieces[@]}"

# The caller is quiet from 1,300 ms on. A Te that a line gives is kept: with 500 for 1,000, CM and all that follows come half a second sooner.
text "${whole}Te 500\n"
awk '
    /^Te / { sub(/1000/, "500") }
    /^ *[0-9]+  / && $1 > 1300 { $0 = sprintf("%5d", $1 - 500) substr($0, 6) }
    { print }
' "$calls/v32bis.timeline" >"$work/expected"
check "$program" 'a Te of 500 that is given' "$work/input" "$work/expected" "${pieces[@]}"

# ANSam is heard before the caller calls, so it sends three sequences of CI, whatever its cadence is: the same ladder below another plan.
for cadence in '3 120' '20 600' '5 600' '20 450'; do
    text "cadence $cadence\n$whole"
    sed "s/^cadence .*/cadence   $cadence/" "$calls/v32bis.timeline" >"$work/expected"
    check "$program" "a cadence of $cadence" "$work/input" "$work/expected" "${pieces[@]}"
done

every_function=''
for function in $functions; do
    every_function+=" $function $modes,"
done
tail=' home fax-sent, wants LAPM, wants access, cellular digital'
reversed=' digital cellular wants access wants LAPM home fax-sent'
understood 'every name, in upper and in lower case' \
    "CALLER${every_function^^}${tail^^}\nanswerer$reversed${every_function,,}\ncall textphone\nTe 5000" \
    "caller   $every_function$tail\nanswerer $every_function$tail\ncall      textphone\nTe        5000\ncadence   5 450\nanswers   200"
understood 'the first function is the home function' "answerer videotex, H.324\ncaller data, textphone V.21\ncall textphone" \
    'caller    textphone V.21, data, home data\nanswerer  H.324, videotex, home videotex\ncall      textphone\nTe        1000\ncadence   5 450\nanswers   200'
understood 'sixteen damaged bits in a line' "damaged caller $(seq -s ' ' 17 -1 1)\n${whole}damaged answerer $(seq -s ' ' 16)" \
    "$(plan <"$calls/v32bis.timeline")\ndamaged   caller $(seq -s ' ' 16)\ndamaged   caller 17\ndamaged   answerer $(seq -s ' ' 16)"
understood 'octets in upper and lower case, in lines that stand anywhere' \
    "blocks 06 b5\t01,4F # 00\n$caller\nBlocks aB\n$answerer\ndamaged caller 7\ncall data\nBLOCKS 0a 0A" \
    "$(plan <"$calls/v32bis.timeline")\nblocks    06 B5 01 4F AB 0A 0A\ndamaged   caller 7"
# A block of 36 octets, which are the most that fit, and blocks with sixteen octets behind their codes.
every_octet=$(printf '%02X ' {0..255})
most="23 B5 00 ${every_octet:0:98}"
understood 'sixteen octets in a line' "${whole}blocks $most" \
    "$(plan <"$calls/v32bis.timeline")\nblocks    ${most:0:47}\nblocks    ${most:48:47}\nblocks    ${most:96:11}"
for ((from = 0; from < 768; from += 48)); do
    octets="12 B5 00 ${every_octet:from:47}"
    understood "octets from $((from / 3)) on" "${whole}blocks $octets" "$(plan <"$calls/v32bis.timeline")\nblocks    ${octets:0:47}\nblocks    ${octets:48}"
done

tried=()
refuses 'an unknown line' "$caller\ncalled data\n" "line 2, 'called'" 1
refuses 'on without its line' 'on 5' "line 1, 'on'" 1
refuses 'a function before its end' 'data V.34' "line 1, 'data'" 1
refuses 'home before its end' "\n\nhome" "line 3, 'home'" 1
refuses 'a name of an access group at the front' 'caller-cellular' "line 1, 'caller-cellular'" 1
refuses 'the bytes 0 and 255' '\0\0377' "line 1, '??'" 1
refuses 'a word of 41 bytes is cut off' "$(seq -s '' 25)z" "line 1, '1234567891011121314151617181920212223242'" 1
refuses 'a form feed is no blank' "$caller\f\n" "line 1, 'LAPM?'" 4
refuses 'the first words of a text in UTF-8' '\0357\0273\0277caller data' "line 1, '???caller'" 1
refuses 'an unknown modulation' "$caller\nanswerer data V.90\n" "line 2, 'V.90'" 2
refuses 'a modulation with a blank' 'caller data V.32 bis' "line 1, 'bis'" 2
refuses 'LAPM without wants' 'caller data LAPM' "line 1, 'LAPM'" 2
refuses 'a line within a line' 'caller data answerer data' "line 1, 'answerer'" 2
refuses 'an option of an access group' 'answerer data digital-network' "line 1, 'digital-network'" 2
refuses 'a record in hexadecimal' 'caller 0:0000:0' "line 1, '0:0000:0'" 2
refuses 'home without a function' 'caller data home V.34' "line 1, 'V.34'" 3
refuses 'home at the end of a line' "caller data home\n$answerer" 'line 1, at its end' 3
refuses 'home before a comment' "caller data home # data\n" 'line 1, at its end' 3
refuses 'home at the end of the text' 'caller data home' 'line 1, at its end' 3
refuses 'digital wanted' 'caller data wants digital' "line 1, 'digital'" 4
refuses 'two things behind one wants' 'caller data wants LAPM access' "line 1, 'access'" 2
refuses 'wants at the end of a line' "\nanswerer data wants\n" 'line 2, at its end' 4
refuses 'wants at the end of the text' 'answerer data wants,' 'line 1, at its end' 4
refuses 'a call by number' "$caller\ncall 6" "line 2, '6'" 5
refuses 'a call of an end' 'call answerer' "line 1, 'answerer'" 5
refuses 'call at the end of a line' "call\ndata\n" 'line 1, at its end' 5
refuses 'call at the end of the text' "$caller\ncall" 'line 2, at its end' 5
refuses 'Te of 499' 'Te 499' "line 1, '499'" 6
refuses 'Te of 5001' "$whole\nTe 5001" "line 5, '5001'" 6
refuses 'Te with its unit' 'Te 500ms' "line 1, '500ms'" 6
refuses 'Te that is far too large' 'Te 18446744073709552116' "line 1, '18446744073709552116'" 6
refuses 'Te at the end of a line' "Te\n500" 'line 1, at its end' 6
refuses 'Te at the end of the text' "${whole}Te" 'line 4, at its end' 6
refuses 'damage of no end' 'damaged 700' "line 1, '700'" 7
refuses 'damage of a function' 'damaged data 700' "line 1, 'data'" 7
refuses 'damaged at the end of a line' "damaged\n" 'line 1, at its end' 7
refuses 'damaged at the end of the text' 'damaged' 'line 1, at its end' 7
refuses 'bit 9000 first' "damaged caller 9000\n" "line 1, '9000'" 8
refuses 'damage of both ends' 'damaged caller answerer 700' "line 1, 'answerer'" 8
refuses 'damage without bits' "$caller\ndamaged caller\n" 'line 2, at its end' 8
refuses 'damage without bits at the end of the text' 'damaged answerer # 5' 'line 1, at its end' 8
refuses 'bit 9000 behind another' 'damaged caller 8999 9000' "line 1, '9000'" 9
refuses 'a bit before the call' 'damaged answerer 1, -1' "line 1, '-1'" 9
refuses 'a bit that is far too large' 'damaged answerer 0 4294967296' "line 1, '4294967296'" 9
refuses 'a range of bits' 'damaged answerer 1 .. 5' "line 1, '..'" 9
refuses 'two functions called' "$caller\ncall data data" "line 2, 'data'" 10
refuses 'a modulation called' "call data V.34\n" "line 1, 'V.34'" 10
refuses 'two times of Te' 'Te 500, 501' "line 1, '501'" 10
refuses 'three numbers of a cadence' 'cadence 5 450 5' "line 1, '5'" 10
refuses 'a second caller' "$whole$caller\n" "line 4, 'caller'" 11
refuses 'a second answerer' "$answerer\n\nANSWERER" "line 3, 'ANSWERER'" 11
refuses 'a second call' "call data\ncall data\n" "line 2, 'call'" 11
refuses 'a second Te' "Te 500\n${whole}Te 500" "line 5, 'Te'" 11
refuses 'two times of the answer' 'answers 200 300' "line 1, '300'" 10
refuses 'a second time of the answer' "answers 200\n${whole}Answers 200" "line 5, 'Answers'" 11
refuses 'a second cadence' "Cadence 5 450\n${whole}cadence 5 450" "line 5, 'cadence'" 11
refuses 'a function twice' "caller data V.34, videotex, DATA V.21" "line 1, 'DATA'" 11
refuses 'a modulation twice' 'caller data V.34 V.21 v.34' "line 1, 'v.34'" 11
refuses 'a modulation by both names' 'caller data V.32bis V.32' "line 1, 'V.32'" 11
refuses 'two home functions' 'caller data home data home data' "line 1, 'data'" 11
refuses 'LAPM wanted twice' "$caller wants LAPM" "line 1, 'LAPM'" 11
refuses 'cellular twice' 'caller data cellular, cellular' "line 1, 'cellular'" 11
refuses 'a modulation before the functions' 'caller V.34 data' "line 1, 'V.34'" 12
refuses 'a modulation behind the home function' 'caller data home data V.34' "line 1, 'V.34'" 12
refuses 'a modulation behind what is wanted' "$caller V.91" "line 1, 'V.91'" 12
refuses 'a modulation behind what a line is' 'answerer data digital V.22' "line 1, 'V.22'" 12
refuses 'an end without words' "caller\n$answerer" 'line 1, at its end' 13
refuses 'an end that only wants' "$caller\nanswerer wants LAPM, cellular" 'line 2, at its end' 13
refuses 'a home function that is not there' "caller data home H.324\n" 'line 1, at its end' 14
refuses 'a home function alone' "$caller\nanswerer home data" 'line 2, at its end' 14
refuses 'analogue PCM without V.34' "caller data V.32bis PCM-analogue\n" 'line 1, at its end' 15
refuses 'digital PCM beside the V.34 of another function' 'answerer data V.34, videotex PCM-digital' 'line 1, at its end' 15
refuses 'comments alone' '# nothing\n\n' '' 16
refuses 'no caller' "$answerer\ncall data\n" '' 16
refuses 'no answerer' "$caller\ncall data\n" '' 17
refuses 'no call' "$caller\n$answerer" '' 18
refuses 'no call, its word in a comment' "$caller\n$answerer\n# call data\n" '' 18
refuses 'a function that the caller has not' "$caller\n$answerer\n\ncall fax-sent\n" "line 4, 'fax-sent'" 19
refuses 'a caller that has not the function' "call textphone\n$caller\n$answerer" 'line 2, at its end' 19
refuses 'a last line that has not the function' "call textphone\n$answerer\n$caller" 'line 3, at its end' 19
refuses 'blocks of an end' 'blocks caller 05' "line 1, 'caller'" 20
refuses 'an octet of one digit' "$caller\nblocks 5" "line 2, '5'" 20
refuses 'an octet of three digits' 'blocks 005' "line 1, '005'" 20
refuses 'an octet with its base' 'blocks 0x05' "line 1, '0x05'" 20
refuses 'G for a digit' 'blocks 0G' "line 1, '0G'" 20
refuses 'g for a digit' 'blocks g0' "line 1, 'g0'" 20
refuses 'a byte before 0' 'blocks 0/' "line 1, '0/'" 20
refuses 'a byte behind 9' 'blocks :0' "line 1, ':0'" 20
refuses 'a byte before A' 'blocks @A' "line 1, '@A'" 20
refuses 'a byte before a' 'blocks a`' "line 1, 'a\`'" 20
refuses 'blocks at the end of a line' "blocks\n05" 'line 1, at its end' 20
refuses 'blocks at the end of the text' "${whole}blocks # 05" 'line 4, at its end' 20
refuses 'a CM without octets' "caller sends\n$answerer" 'line 1, at its end' 20
refuses 'a CM without octets at the end of the text' "$answerer\ncaller sends # C1" 'line 2, at its end' 20
refuses 'a CM of functions' 'caller sends data' "line 1, 'data'" 20
refuses 'what is wanted behind a CM' 'caller sends C1 45 wants LAPM' "line 1, 'wants'" 21
refuses 'a second CM in its line' 'caller sends C1 45 sends C1 45' "line 1, 'sends'" 21
refuses 'a CM behind a function' 'caller data sends C1 45' "line 1, 'sends'" 22
refuses 'a CM behind what is wanted' 'caller wants LAPM, Sends C1 45' "line 1, 'Sends'" 22
refuses 'a CM behind what a line is' 'caller digital sends C1 45' "line 1, 'sends'" 22
refuses 'a CM behind the home function' 'caller home data sends C1 45' "line 1, 'sends'" 22
refuses 'a CM of the answerer' "$caller\nanswerer sends C1 45" "line 2, 'sends'" 22
refuses 'a CM behind a call' "call data\ncaller sends C1 45" "line 2, 'sends'" 22
refuses 'a call behind a CM' "caller sends C1 45\ncall data" "line 2, 'call'" 11
refuses 'a caller behind a CM' "caller sends C1 45\n$caller" "line 2, 'caller'" 11
refuses 'a CM behind a caller' "$caller\ncaller sends C1 45" "line 2, 'caller'" 11
refuses 'a CM twice' "caller sends C1 45\ncaller sends C1 45" "line 2, 'caller'" 11
refuses 'sends without its end' 'sends C1 45' "line 1, 'sends'" 1
refuses 'sends as what is wanted' 'caller data wants sends' "line 1, 'sends'" 4
refuses 'a CM and no answerer' 'caller sends C1 45' '' 17
refuses 'a name behind octets' 'blocks 05 b5 data' "line 1, 'data'" 21
refuses 'a number behind octets' "blocks 05\nblocks 05 500" "line 2, '500'" 21
refuses 'a sign behind octets' 'blocks 05, -5' "line 1, '-5'" 21
refuses 'a cadence in words' 'cadence on 5 off 450' "line 1, 'on'" 23
refuses 'two sequences on' "$caller\ncadence 2 450" "line 2, '2'" 23
refuses 'twenty-one sequences on' 'cadence 21 450' "line 1, '21'" 23
refuses '261 sequences on, which is 5 in a byte' 'cadence 261 450' "line 1, '261'" 23
refuses 'an on period that is far too long' 'cadence 4294967301 450' "line 1, '4294967301'" 23
refuses 'cadence at the end of a line' "cadence\n5 450" 'line 1, at its end' 23
refuses 'cadence at the end of the text' "${whole}cadence # 5 450" 'line 4, at its end' 23
refuses '119 bit times off' 'cadence 5 119' "line 1, '119'" 24
refuses '601 bit times off' 'cadence 3, 601' "line 1, '601'" 24
refuses '65986 bit times off, which are 450 in 16 bits' 'cadence 5 65986' "line 1, '65986'" 24
refuses 'an off period with its unit' 'cadence 5 450ms' "line 1, '450ms'" 24
refuses 'an on period alone' "cadence 5\n$whole" 'line 1, at its end' 24
refuses 'an on period alone at the end of the text' "${whole}cadence 5," 'line 4, at its end' 24
refuses 'an answer in a word' 'answers late' "line 1, 'late'" 25
refuses 'an answer at 199' "$caller\nanswers 199" "line 2, '199'" 25
refuses 'an answer at 20001' 'answers 20001' "line 1, '20001'" 25
refuses 'an answer at 65736, which is 200 in 16 bits' 'answers 65736' "line 1, '65736'" 25
refuses 'answers at the end of a line' "answers\n200" 'line 1, at its end' 25
refuses 'answers at the end of the text' "${whole}answers" 'line 4, at its end' 25
refuses 'the first of two wrong lines' "call x\nTe y\n" "line 1, 'x'" 5
refuses 'the first of two wrong words' 'caller data V.90 LAPM' "line 1, 'V.90'" 2
refuses 'a word, then what is wrong with the end' 'answerer data PCM-digital V.90' "line 1, 'V.90'" 2
refuses 'a home function, then PCM' 'caller data PCM-digital home H.324' 'line 1, at its end' 14
refuses 'PCM, then the function of the call' "call videotex\ncaller data PCM-digital\n" 'line 2, at its end' 15
refuses 'a wrong line before what is missing' "$caller\nTe 400" "line 2, '400'" 6
refuses 'the function of the call, then what is missing' "$caller\ncall H.324" "line 2, 'H.324'" 19
if [ "${#tried[@]}" -ne 25 ]; then
    printf 'mistakes that no text is tried for: %s of 25 are\n' "${#tried[@]}"
    differ=$((differ + 1))
fi

unmade '37 octets' "24 B5 00 ${every_octet:0:101}" "$too_many"
unmade '37 octets in many blocks' "$(printf '02 B5 00 %.0s' {1..11}) 03 B5 00 41" "$too_many"
unmade '64 octets' "3F B5 00 ${every_octet:0:182}" "$too_many"
unmade '65 octets' "40 B5 00 ${every_octet:0:185}" "$too_many"
unmade '256 octets in lines' "FF B5 00 ${every_octet:0:30}\nblocks ${every_octet:30:729}" "$too_many"
unmade 'too many octets, which are no blocks either' "${every_octet:0:110}" "$too_many"
unmade 'a block of nothing' 00 "$no_blocks"
unmade 'a length alone' 01 "$no_blocks"
unmade 'a block that is longer than what remains' '05 B5 01 41 31' "$no_blocks"
unmade 'a block without the length of a provider code' '01 B5' "$no_blocks"
unmade 'a country code without an end' '02 FF FF' "$no_blocks"
unmade 'a country code that takes the whole block' '02 FF B5' "$no_blocks"
unmade 'a provider code that does not fit' '03 B5 02 41' "$no_blocks"
unmade 'a provider code that fits into all blocks alone' '03 B5 02 41 02 B5 00' "$no_blocks"
unmade 'a second block of nothing' '02 B5 00 00' "$no_blocks"
refuses 'a mistake behind octets that are no blocks' "${whole}blocks 00\nTe 400" "line 5, '400'" 6
text "caller data V.34 PCM-digital wants LAPM wants access\n$answerer\ncall data\nblocks $most"
printf '%s\n' "$too_many" >"$work/expected"
check "$program" '36 octets behind every group' "$work/input" "$work/expected" "${pieces[@]}"

# The CM of v32bis.call as a stranger sends it: the same ladder, below another plan. The lines come in any order, words in any letters.
strangers='C1 45 13 90 2A'
sed -e "s/^caller    .*/caller    sends $strangers/" -e '/^call /d' "$calls/v32bis.timeline" >"$work/strangers"
for said in "caller sends $strangers\n$answerer" "Te 1000\nCADENCE 05,0450\nanswers 0200\n$answerer\n# a stranger\nCALLER, SENDS ${strangers,,}" \
    "$answerer\n\tcaller\tSends  ${strangers// /,} # 00\r\n"; do
    text "$said"
    check "$program" 'the CM of a record, as a stranger sends it' "$work/input" "$work/strangers" "${pieces[@]}"
done
sends 'a CM of one octet' 'c1' 'CM data  C1'
sends 'a CM for a function that the answerer has not' '21 45' 'CM H.324: V.34  21 45'
sends 'no function has the number of this one' 'E1 05' 'CM  E1 05'
sends 'more than sixteen octets are in one line' "C1 05 10 10 $(printf '2A %.0s' {1..20})0D" 'CM data, LAPM, access  C1 05 10 10 2A 2A 2A 2A 2A 2A 2A 2A 2A'
understood '64 octets' "$answerer\ncaller sends C1$(printf ' 2A%.0s' {1..63})" \
    "caller    sends C1$(printf ' 2A%.0s' {1..63})\nanswerer  data V.32bis V.22bis V.26ter, home data\nTe        1000\ncadence   5 450\nanswers   200"
unsendable '65 octets' "C1$(printf ' 2A%.0s' {1..64})" "$unsent 4"
unsendable '256 octets, the first of which is no call function' "$every_octet" "$unsent 4"
unsendable 'no call function' '45' "$unsent 5"
unsendable 'a bad octet' 'C1 18' "$unsent 3"
unsendable 'no call function, then a bad octet' '18 C1' "$unsent 5"
unsendable 'blocks beside a CM' 'C1 45\nblocks 02 B5 00' "$with_blocks"
unsendable 'blocks beside a CM that cannot be sent' '45\nblocks 00' "$with_blocks"
refuses 'a mistake behind a CM that cannot be sent' "caller sends 45\n$answerer\nTe 400" "line 3, '400'" 6

level='blocks 07 B5 02 00 41 32 2E 37'
level_told='block 1: country B5, provider 00 41, rest 32 2E 37 "2.7"'
tells 'no blocks' ''
tells 'a block with all its parts' "$level" "$level_told"
tells 'a block with its codes alone' 'blocks 02 B5 00' 'block 1: country B5, no provider code, no rest'
tells 'a long country code, a provider code and no rest' 'blocks 05 FF FF 26 01 00' 'block 1: country FF FF 26, provider 00, no rest'
tells 'several blocks' "blocks 02 B5 00\nblocks 03 00 00 41 04 B5 01 FF 00" 'block 1: country B5, no provider code, no rest' \
    'block 2: country 00, no provider code, rest 41 "A"' 'block 3: country B5, provider FF, rest 00'
tells 'the first and the last that is printable' 'blocks 06 B5 00 20 22 5C 7E' 'block 1: country B5, no provider code, rest 20 22 5C 7E " "\~"'
for octet in 1F 7F 80 A0 FF; do
    tells "$octet is not printable" "blocks 06 B5 00 41 42 $octet 43" "block 1: country B5, no provider code, rest 41 42 $octet 43"
done
tells 'a field that takes several rows' "blocks 23 B5 00 ${every_octet:195:98}\nTe 500" \
    'block 1: country B5, no provider code, rest 41 42 43 44 45 46' '47 48 49 4A 4B 4C 4D 4E 4F 50 51 52 53 54 55 56 57 58 59 5A 5B' \
    '5C 5D 5E 5F 60 61 "ABCDEFGHIJKLMNOPQRSTUVWXYZ[\]^_`a"'
tells 'ten blocks' "blocks $(printf '02 B5 00 %.0s' {1..10})\nTe 500" "$(printf 'block %s: country B5, no provider code, no rest\n' {1..10})"
# The first copy of CM begins with bit 690, and the octet of a number, from 0 on, with bit 710 + 10 * number: the call function has 0, the
# category octet of the field 5, its last octet, in which one bit is left over, 18.
tells 'a block that is damaged' "$level\ndamaged caller 771" 'its field is refused with 14' "$level_told"
tells 'a bit left over that is damaged' "$level\ndamaged caller 898" 'its field is refused with 15' "$level_told"
tells 'an option that is damaged' "$level\ndamaged caller 768" 'its field is refused with 15' "$level_told"
tells 'another tag by damage' "$level\ndamaged caller 761" "$level_told"
tells 'no call function by damage' "$level\ndamaged caller 711" "$level_told"
tells 'a level by damage' "$level\ndamaged caller 851" 'block 1: country B5, provider 00 41, rest 33 2E 37 "3.7"' "$level_told"

# The CI of a call begins with bit 300: ten 1s, the sync, and one octet, whose start bit is bit 20 of each sequence, and whose function stands
# in the bits 26, 27 and 28. It is heard with the ten 1s behind it.
calls 'CI names the function of the call' 'caller data, textphone V.21\nanswerer data\ncall textphone' \
    'calling CI textphone 41' 'CI textphone 41 hears'
calls 'CI names the function of a stranger' "caller sends 21 45\n$answerer" 'calling CI H.324 21' 'CI H.324 21 hears'
calls 'CI names data for a stranger that calls for no function' "caller sends 01 45\n$answerer" 'calling CI data C1' 'CI data C1 hears'
calls 'CI names data for a stranger whose function is none' "caller sends E1 45\n$answerer" 'calling CI data C1' 'CI data C1 hears'
calls 'the first CI is damaged' "${whole}damaged caller 327" 'calling CI data C1' 'CI fax-sent 81 hears' 'CI data C1 hears'
calls 'the second CI is damaged' "${whole}damaged caller 357" 'calling CI data C1' 'CI data C1 hears' 'CI fax-sent 81 hears' 'CI data C1 hears'
calls 'each CI is damaged in the same way' "${whole}damaged caller 327 357 387" 'calling CI data C1' 'CI fax-sent 81 hears'
calls 'the sync of each CI is damaged' "${whole}damaged caller 312 342 372" 'calling CI data C1'
calls 'each CI has the octet 0 by damage, which no CI has: none repeats another' "${whole}damaged caller 321 327 328 351 357 358 381 387 388" \
    'calling CI data C1' 'CI 00 hears' 'CI 00 hears' 'CI 00 hears'
calls 'what is refused parts two CIs that are alike' "${whole}damaged caller 350" 'calling CI data C1' 'CI data C1 hears' 'CI data C1 hears'

# What is heard without octets stands as far right as what has some.
stands 'a CI without octets' 'damaged caller 320 322 323 324 325 326' "$(printf ' 1096%78sCI hears' '')"
stands 'a CM without octets' 'damaged caller 710 712 713 714 715 716' "$(printf ' 2396%78sCM hears' '')"

# The first on period is from bit 300, at 1000, to bit 449, and the next begins with bit 900. The caller hears ANSam one bit behind the time of
# the answer: before the third sequence is sent, between two, within one, behind the last of an on period, in silence, and with the first bit of the
# next on period.
quiet 'ANSam before the caller calls' 200 1300
quiet 'ANSam within the first sequence' 1050 1300
quiet 'ANSam with the last bit of the third' 1293 1300
quiet 'ANSam behind the third sequence' 1296 1300
quiet 'ANSam with the first bit of the fourth' 1300 1400
quiet 'ANSam with the last bit of an on period' 1493 1500
quiet 'ANSam behind an on period' 1496 1500
quiet 'ANSam in silence' 2000 2003
quiet 'ANSam with the last silence' 2993 2996
quiet 'ANSam behind the silence' 2996 3000
quiet 'ANSam with the first bit of the second on period' 3000 3100
late="${whole}cadence 3 120\nanswers 4000"
calls 'CI in every on period, and what a late answerer hears of it' "$late" 'calling CI data C1' 'calling CI data C1' 'calling CI data C1' 'calling CI data C1' \
    'calling CI data C1' 'CI data C1 hears'
calls 'damage in silence changes nothing' "$late\ndamaged caller $(seq -s ' ' 390 509)" 'calling CI data C1' 'calling CI data C1' 'calling CI data C1' \
    'calling CI data C1' 'calling CI data C1' 'CI data C1 hears'

# No text gets the help, with every name in it.
"$program" </dev/null >"$work/printed"
head -n 1 "$work/printed" >"$work/input"
printf 'A call text says what both ends can do, and what the caller calls for:\n' >"$work/expected"
cmp -s "$work/input" "$work/expected" || { printf 'no text: no help\n'; differ=$((differ + 1)); }
for name in $lines $functions $modes $other_modes $parts $wanted $qualities $access; do
    runs=$((runs + 1))
    sed -n '/^Lines:/,$p' "$work/printed" | tr ' ' '\n' | grep -qxF -- "$name" || { printf 'the help: %s is not in it\n' "$name"; differ=$((differ + 1)); }
done

# 131,071 bytes are read, and more are not: a call with a comment that fills the text, and one byte more.
{ printf '%b#' "$whole"; head -c 140000 /dev/zero | tr '\0' x; } | head -c 131071 >"$work/longest"
check "$program" 'a text of 131071 bytes' "$work/longest" "$calls/v32bis.timeline" "${pieces[@]}"
printf 'x' | cat "$work/longest" - >"$work/longer"
printf 'the text is longer than 131071 bytes\n' >"$work/expected"
check "$program" 'a text of 131072 bytes' "$work/longer" "$work/expected" "${pieces[@]}"
cat "$work/longer" "$work/longer" >"$work/input"
check "$program" 'a text of 262144 bytes' "$work/input" "$work/expected" "${pieces[@]}"
head -c 131071 /dev/zero | tr '\0' ' ' >"$work/input"
printf '%s\n' "${mistakes[16]}" >"$work/expected"
check "$program" 'a line of 131071 blanks' "$work/input" "$work/expected" "${pieces[@]}"
head -c 131071 /dev/zero | tr '\0' 1 >"$work/input"
printf "line 1, '%s': %s\n" "$(head -c 40 "$work/input")" "${mistakes[1]}" >"$work/expected"
check "$program" 'a word of 131071 bytes' "$work/input" "$work/expected" "${pieces[@]}"

# The longest plan, with every bit damaged, is printed and read back.
{ printf '%b' "$whole"; printf 'damaged caller %s\ndamaged answerer %s\n' "$(seq -s ' ' 0 8999)" "$(seq -s ' ' 0 8999)"; } >"$work/input"
"$program" <"$work/input" >"$work/longest"
plan <"$work/longest" >"$work/input"
check "$program" 'the plan of a call with every bit damaged' "$work/input" "$work/longest" "${pieces[@]}"

# A random plan, in words: it is understood, and its plan above the ladder, as a text, gets the same.
random_call() {
    LC_ALL=C awk -v seed="$1" -v functions="$functions" -v modes="$modes" '
        function below(n) { return int(rand() * n) }
        function end(name, must,    i, j, text) {
            text = name
            for (i = 1; i <= 6; i++) if (i == must || below(2)) {
                text = text " " function_of[i] " V.34"
                for (j = 2; j <= 15; j++) if (below(3) == 0) text = text " " mode_of[j]
            }
            if (below(2)) text = text " home " function_of[must]
            if (below(2)) text = text " wants LAPM"
            if (below(2)) text = text " wants access"
            return text (below(2) ? " cellular" : "") (below(2) ? " digital" : "")
        }
        BEGIN {
            srand(seed); split(functions, function_of, " "); split(modes, mode_of, " "); called = 1 + below(6); stranger = seed % 5 == 0
            if (stranger) {
                printf(below(2) ? "caller sends %02x %02X" : "CALLER Sends %02X %02x", 1 + 32 * called, 5 + 32 * below(8))
                for (i = below(20); i > 0; i--) printf " %02x", 16 + below(8) + 64 * below(4)
                print ""
            } else {
                print end("caller", called); print "call " function_of[called]
            }
            print end("answerer", 1 + below(6))
            if (below(2)) print "Te " 500 + below(4501)
            if (below(2)) print "cadence " 3 + below(18) " " 120 + below(481)
            if (below(3) == 0) print "answers " 200 + below(6000)
            for (i = stranger ? 0 : below(4); i > 0; i--) {
                provider = below(3); rest = below(5)
                printf "blocks %02x %02X %02X", 2 + provider + rest, below(255), provider
                for (j = provider + rest; j > 0; j--) printf(below(2) ? " %02X" : " %02x", below(2) ? 32 + below(95) : below(256))
                print ""
            }
            for (i = below(40); i > 0; i--) print "damaged " (below(2) ? "caller " : "answerer ") 300 + below(1100)
        }'
}
for ((n = 1; n <= 100; n++)); do
    random_call "$n" >"$work/input"
    survives "random plan $n"
    "$program" <"$work/input" >"$work/first"
    plan <"$work/first" >"$work/plan"
    grep -qxF "$heading" "$work/first" || { printf 'random plan %s: no ladder\n' "$n"; differ=$((differ + 1)); }
    "$program" <"$work/plan" >"$work/printed"
    compare "random plan $n, its plan" "$work/first" $?
done

for call in "$calls"/*.call; do
    content=$(<"$call")
    for ((bytes = 1; bytes < ${#content}; bytes++)); do
        printf '%s' "${content:0:bytes}" >"$work/input"
        survives "$call, its first $bytes bytes"
    done
done

# random SEED COUNT SEPARATOR WORD..: so many words, the same for the same seed.
random() {
    LC_ALL=C awk 'BEGIN {
        srand(ARGV[1])
        for (i = 0; i < ARGV[2]; i++) printf "%s%s", ARGV[4 + int(rand() * (ARGC - 4))], ARGV[3]
    }' "$@"
}
mapfile -t bytes < <(LC_ALL=C awk 'BEGIN { for (i = 1; i < 256; i++) if (i != 10) printf "%c\n", i }')
read -ra words <<<"$lines $functions $modes $other_modes $parts $wanted $qualities $access 500 0 8999 9000 5 450 200 02 b5 00 c1 45 # ,"
for ((n = 1; n <= 40; n++)); do
    random "$n" $((n * n * 31)) '' "${bytes[@]}" $'\n' >"$work/input"
    survives "random bytes, run $n"
    { printf 'caller data '; random "$n" "$n" ' ' "${words[@]}" $'\n' data V.34 home wants; } >"$work/input"
    survives "random words, run $n"
    { printf 'answerer data\ncaller '; random "$n" $((1 + n / 4)) ' ' sends C1 c1 45 10 2A 18 $'\n' caller data; } >"$work/input"
    survives "random words of a stranger, run $n"
    { printf '%b' "$whole"; random "$n" "$n" $'\n' 'damaged caller 320 700 771' 'damaged answerer 850' 'cadence 3 120' 'cadence 20' 'answers 4000' 'blocks 03 b5' 'blocks 00 02' 'blocks 02 B5 00' '# Te' ''; } >"$work/input"
    survives "random lines behind a call, run $n"
done

sound
all_alike
