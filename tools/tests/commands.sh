# The commands try, vary, run, alone, screen and check, on good and bad input.

# Lines about the size of the queue, each after a line without a number, come back whole.
long_lines_are_typed() {
    local size
    : >listing.bas
    for size in 126 127 128 256; do
        printf 'X=1\n%d REM %s\n' "$size" "$(bytes $((size - 8)))" >>listing.bas
    done
    echo LIST >>listing.bas
    ./b2 type 1 listing.bas >listing.log
    gives 0 "lines of 126 to 256 bytes" ./b2 run examples/first.toml listing.log out
    is_empty "lines of 126 to 256 bytes: no key is lost" "$work/err"
    for size in 126 127 128 256; do
        if [ "$(grep -c "^:$size REM x\{$((size - 8))\}\$" out.t01)" = 1 ]; then ok; else bad "a line of $size bytes" "not echoed"; fi
        if [ "$(grep -c "^$size REM x\{$((size - 8))\}\$" out.t01)" = 1 ]; then ok; else bad "a line of $size bytes" "not listed"; fi
    done
}

# A write past the size that files may have fails with its status, and leaves nothing beside the file.
run_meets_a_limit_of_files() {
    gives 7 "run under a limit of files' sizes" bash -c 'ulimit -f 1; ./b2 run examples/disk.toml examples/articles.log limited'
    has "run names the file that is too long" "$work/err" "write fault limited.D11"
    if [ -e limited.D11 ] || [ -e limited.D11~ ]; then bad "run under a limit" "a part of the file is left"; else ok; fi
}

# A program that prints without end ends with its status where memory may not grow any further, and nothing is written.
run_meets_a_limit_of_memory() {
    printf '%s\n' 'type 1 10 PRINT 1,2,3,4,5,6,7,8,9,10:GOTO 10' 'type 1 RUN' 'rounds 100000' 'rounds 100000' 'rounds 40000' >endless.log
    gives 8 "run under a limit of memory" \
        bash -c 'ulimit -v 60000; exec "$1" run examples/first.toml endless.log unbounded' - "$top/crates/b2_mvp/out/b2_mvp"
    is_text "run under a limit of memory" "$work/err" 'no memory\n'
    if ls unbounded.* >"$work/out" 2>&1; then bad "run under a limit of memory" "a file is written"; else ok; fi
}

run_tells_dropped() {
    printf 'type 1 %s\ntype 1 %s\nrounds 1\n' "$(bytes 100)" "$(bytes 100)" >full.log
    gives 0 "run: a full queue" ./b2 run examples/first.toml full.log out
    is_text "run: a full queue" "$work/out" 'turns 1 steps 3 dropped 74 apart 1\n'
    is_text "run: a full queue" "$work/err" \
        'b2: 74 keys found a full queue; turns belong between the lines of keys, as b2 type gives them\n'
    gives 0 "alone: a full queue" ./b2 alone examples/first.toml full.log out 1
    has "alone: a full queue" "$work/err" '74 keys found a full queue'
    gives 0 "run: no key is lost" ./b2 run examples/first.toml examples/first.log out
    is_text "run: no key is lost" "$work/out" 'turns 5 steps 4 dropped 0 apart 1\n'
    is_empty "run: no key is lost" "$work/err"
    gives 2 "run: a file that isn't there" ./b2 run examples/first.toml nofile out
    is_text "run: a file that isn't there" "$work/err" 'missing nofile\n'
    [ ! -e /dev/full ] || gives 7 "run: a summary that can't be put" bash -c './b2 run examples/first.toml full.log out >/dev/full'
    gives 1 "no words" ./b2
    has "no words" "$work/err" './b2 try examples/mortgage.bas'
    gives 0 "--help" ./b2 --help
    has "--help" "$work/out" './b2 try examples/mortgage.bas'
    gives 1 "words that are no command" ./b2 fun examples/first.toml full.log out
    has "words that are no command" "$work/err" './b2 try examples/mortgage.bas'
}

# What `blank` writes is the disk that the machine makes.
blank_writes_what_the_machine_makes() {
    printf '%s\n' 'quota = 1' 'terminal = [{number = 1, front = 1}]' 'partition = [{number = 1, terminal = 1, text = 8, data = 8, globals = 2}]' \
        'platter = [{address = "D11", blank = 16, version = 2}, {address = "D12", blank = 70000, version = 2}]' >wide.toml
    : >nothing.log
    gives 0 "run: blank disks of version 2" ./b2 run wide.toml nothing.log made
    gives 0 "blank: the least" "$top/tools/blank" 16 least
    gives 0 "blank: a greater one" "$top/tools/blank" 70000 greater
    if cmp least made.D11 && cmp greater made.D12; then ok; else bad "blank" "it isn't the disk that the machine makes"; fi
    for words in '15 f' '262145 f' 'x f' '-16 f' '16' '16 f g'; do
        # shellcheck disable=SC2086 # the words are words
        gives 2 "blank $words" "$top/tools/blank" $words
    done
    gives 7 "blank: a file that is there" "$top/tools/blank" 17 least
    if cmp least made.D11; then ok; else bad "blank" "it wrote over a file"; fi
}

try_runs_a_listing() {
    printf '20 PRINT "TWO"\n10 PRINT "ONE"\n' >listing.bas
    gives 0 "try: a program without questions" ./b2 try listing.bas
    is_text "try: a program without questions" "$work/out" 'RUN\nONE\nTWO\n:'
    is_empty "try: a program without questions" "$work/err"
    answered 0 "try: every statement that runs" "$(cat "$top/tools/tests/every_statement.in")" \
        ./b2 try "$top/tools/tests/every_statement.bas"
    same "try: every statement that runs" "$work/out" "$top/tools/tests/every_statement.out"
    is_empty "try: every statement that runs" "$work/err"
    # An error ends a run as END does.
    echo '10 PRINT 1/0' >listing.bas
    gives 23 "try: an error" ./b2 try listing.bas
    is_text "try: an error" "$work/out" 'RUN\nERR C62 AT 10\n:'
    is_text "try: an error" "$work/err" 'try: listing.bas:1: 10 PRINT 1/0: C62 when it ran: a number is divided by zero\n'
    printf '10 PRINT "A"\n\n20 GOSUB 40\n30 END\n40 READ A\n' >listing.bas
    gives 23 "try: an error in a line further down" ./b2 try listing.bas
    has "try: an error in a line further down" "$work/err" 'try: listing.bas:5: 40 READ A: X70 when it ran: `READ` finds no further value'
    printf '10 X=1/0:ERROR PRINT ERR\n' >listing.bas
    gives 0 "try: an error that is taken" ./b2 try listing.bas
    is_empty "try: an error that is taken" "$work/err"
    : >listing.bas
    gives 0 "try: an empty listing" ./b2 try listing.bas
    printf '10 FOR I=1 TO 20000:NEXT I\n20 PRINT I\n' >listing.bas
    gives 0 "try: a run of many turns" ./b2 try listing.bas
    is_text "try: a run of many turns" "$work/out" 'RUN\n 20001 \n:'
}

try_answers() {
    printf '10 LINPUT "A",A$:KEYIN B$:INPUT "C",C\n20 PRINT A$;B$;C\n' >listing.bas
    answered 0 "try: a line, a key, a line" 'ONE\nX\n5\n' ./b2 try listing.bas
    is_text "try: a line, a key, a line" "$work/out" 'RUN\nA? ONE\nC? 5\nONEX 5 \n:'
    answered 0 "try: the last answer without a newline" 'ONE\nX\n5' ./b2 try listing.bas
    has "try: the last answer without a newline" "$work/out" 'ONEX 5'
    answered 0 "try: carriage returns and tabs" 'A\tB\r\nX\r\n5\r\n' ./b2 try listing.bas
    has "try: carriage returns and tabs" "$work/out" 'A BX 5'
    answered 21 "try: an answer is missing" 'ONE\n' ./b2 try listing.bas
    is_text "try: an answer is missing" "$work/out" 'RUN\nA? ONE\n'
    is_text "try: an answer is missing" "$work/err" "try: the program waits for an answer that isn't there\n"
    answered 21 "try: the last answer is missing" 'ONE\nX\n' ./b2 try listing.bas
    is_text "try: the last answer is missing" "$work/out" 'RUN\nA? ONE\nC? '
    answered 0 "try: answers that are left" 'ONE\nX\n5\nMORE\nAND MORE\n' ./b2 try listing.bas
    is_text "try: answers that are left" "$work/err" \
        'try: the run has ended; answer 4 and what follows it was not asked for\n'
    is_text "try: answers that are left are not typed" "$work/out" 'RUN\nA? ONE\nC? 5\nONEX 5 \n:'
    answered 2 "try: an answer that can't be typed" 'ONE\n\001\n' ./b2 try listing.bas
    has "try: an answer that can't be typed" "$work/err" 'answer 2 has a byte that no key gives'
    printf '10 KEYIN A$:PRINT HEXOF(A$)\n' >listing.bas
    answered 0 "try: an empty line is RETURN where KEYIN waits" '\n' ./b2 try listing.bas
    is_text "try: an empty line is RETURN where KEYIN waits" "$work/out" 'RUN\n0D\n:'
    printf '10 DIM A$124:LINPUT A$:PRINT LEN(A$)\n' >listing.bas
    answered 0 "try: an answer of 200 bytes" "$(bytes 200)\\n" ./b2 try listing.bas
    is_text "try: an answer of 200 bytes" "$work/out" "RUN\n? $(bytes 200)\n 124 \n:"
    is_empty "try: an answer of 200 bytes" "$work/err"
}

# A program that passes turns goes on after them, and doesn't wait for an answer meanwhile.
try_passes_turns() {
    printf '10 FOR I=1 TO 3:$BREAK 255:NEXT I:PRINT "DONE"\n' >listing.bas
    gives 0 "try: turns that a program passes" ./b2 try listing.bas
    is_text "try: turns that a program passes" "$work/out" 'RUN\nDONE\n:'
    is_empty "try: turns that a program passes" "$work/err"
    printf '10 $BREAK 200:INPUT "A",A:$BREAK 200:PRINT A*A\n' >listing.bas
    answered 0 "try: an answer between passed turns" '7\n' ./b2 try listing.bas
    is_text "try: an answer between passed turns" "$work/out" 'RUN\nA? 7\n 49 \n:'
    answered 21 "try: no answer after passed turns" '' ./b2 try listing.bas
    is_text "try: no answer after passed turns" "$work/out" 'RUN\nA? '
    printf '10 KEYIN A$,100,100:$BREAK 20:GOTO 10\n100 PRINT "A KEY"\n' >listing.bas
    gives 20 "try: a program that polls" ./b2 try --steps 3000 listing.bas
    is_text "try: a program that polls" "$work/out" 'RUN\n'
    is_text "try: a program that polls" "$work/err" \
        'try: the steps ran out; --steps N grants more, and a log has at most 5000000\n'
    printf '10 REM $BREAK 5\n20 $BREAK:PRINT "ON"\n' >listing.bas
    gives 0 "try: a number that isn't there" ./b2 try listing.bas
    is_text "try: a number that isn't there" "$work/out" 'RUN\nON\n:'
}

try_gives_special_keys() {
    printf '%s\n' '10 PRINT "READY FOR KEYS":END' "20 DEFFN'0:PRINT \"ZERO\":RETURN" "30 DEFFN'31\"PRINT 7\"" \
        "40 DEFFN'5:LINPUT \"NAME\",N\$:PRINT N\$:RETURN" >listing.bas
    answered 0 "try: keys after the end" 'sf 0\nsf 5\nANN\n' ./b2 try listing.bas
    is_text "try: keys after the end" "$work/out" 'RUN\nREADY FOR KEYS\n:ZERO\n:NAME? ANN\nANN\n:'
    answered 0 "try: a key types a line, and the next answer goes on with it" 'sf 31\n;8\n' ./b2 try listing.bas
    is_text "try: a key types a line, and the next answer goes on with it" "$work/out" \
        'RUN\nREADY FOR KEYS\n:PRINT 7;8\n 7  8 \n:'
    answered 0 "try: a line that is not ended" 'sf 31\n' ./b2 try listing.bas
    is_text "try: a line that is not ended" "$work/out" 'RUN\nREADY FOR KEYS\n:PRINT 7'
    answered 0 "try: sf 32 is no key" 'sf 32\n' ./b2 try listing.bas
    has "try: sf 32 is no key" "$work/err" 'answer 1 and what follows'
}

try_ends_with_its_status() {
    printf '10 PRINT "A"\n20 PRIMT\n30 PRINT SIN(1)\n' >listing.bas
    gives 22 "try: lines that are not taken" ./b2 try listing.bas
    is_text "try: lines that are not taken" "$work/out" 'RUN\nA\n:'
    has "try: lines that are not taken" "$work/err" 'try: listing.bas:2: 20 PRIMT: S12 at column 5: an equals sign is missing; also where a word is misspelled'
    has "try: lines that are not taken" "$work/err" 'try: listing.bas:3: 30 PRINT SIN(1): S27 at column 10: a word of the real machine that this one leaves out'
    printf '10 GOSUB 30\n20 END\n30 PRIMT\n' >listing.bas
    gives 23 "try: a line that is not taken, and an error" ./b2 try listing.bas
    has "try: a line that is not taken, and an error" "$work/err" 'try: listing.bas:1: 10 GOSUB 30: P36 when it ran: there is no line of this number'
    echo '10 GOTO 10' >listing.bas
    gives 20 "try: an endless loop" ./b2 try --steps 3000 listing.bas
    is_text "try: an endless loop" "$work/out" 'RUN\n'
    is_text "try: an endless loop" "$work/err" \
        'try: the steps ran out; --steps N grants more, and a log has at most 5000000\n'
    printf '10 PRINT "A":INPUT B:GOTO 10\n' >listing.bas
    answered 20 "try: too few steps" '1\n2\n3\n4\n5\n' ./b2 try --steps 20 listing.bas
    echo '10 FOR I=1 TO 2000:NEXT I:PRINT "DONE"' >loop.bas
    gives 0 "try: all the steps that a log has" ./b2 try --steps 5000000 loop.bas
    echo '10 GOTO 10' >loop.bas
    gives 20 "try: an endless loop with all steps" ./b2 try --steps 5000000 loop.bas
    # The line is read, RUN executed, a PRINT executed and the colon shown.
    echo '10 PRINT "A"' >listing.bas
    gives 0 "try: few steps are enough" ./b2 try --steps 20 listing.bas
    gives 20 "try: two steps aren't" ./b2 try --steps 2 listing.bas
    printf '10 FOR I=1 TO 400:$BREAK:NEXT I\n20 PRINT "DONE"\n' >listing.bas
    gives 0 "try: turns that \$BREAK ends" ./b2 try --steps 30000 listing.bas
    is_text "try: turns that \$BREAK ends" "$work/out" 'RUN\nDONE\n:'
    printf '10 PRINT 1\nRUN\n20 PRINT 2\n' >listing.bas
    gives 0 "try: a RUN in the listing that comes to its end" ./b2 try listing.bas
    printf '10 INPUT A\nRUN\n' >listing.bas
    gives 2 "try: a RUN in the listing that waits" ./b2 try listing.bas
    has "try: a RUN in the listing that waits" "$work/err" 'RUN is typed after the listing'
}

try_refuses() {
    local words
    echo '10 END' >listing.bas
    for words in '' 'listing.bas listing.bas' 'nofile' '--fast listing.bas' '--steps 0 listing.bas' '--steps x listing.bas' \
        '--steps 5000001 listing.bas' '--steps' '--keep' '.'; do
        # shellcheck disable=SC2086
        gives 2 "try $words" ./b2 try $words
        is_empty "try $words" "$work/out"
    done
    printf '10 END\n20 \201\n' >listing.bas
    gives 2 "try: a listing that can't be typed" ./b2 try listing.bas
    has "try: a listing that can't be typed" "$work/err" 'listing.bas:2: the line has a byte that no key gives'
    gives 0 "try --help" ./b2 try --help
    gives 0 "live --help" ./b2 live --help
    gives 2 "live without a terminal" ./b2 live
    gives 2 "live --fast" ./b2 live --fast
    gives 2 "live nofile" ./b2 live nofile
    gives 2 "live --disk without a file" ./b2 live --disk
    gives 2 "live --disk with a boot file" ./b2 live --disk my.disk examples/two.toml
    is_text "live --disk with a boot file" "$work/err" 'live: a boot file says itself which disks and printers there are\n'
    gives 2 "live with a listing" ./b2 live examples/stock.bas
    has "live with a listing" "$work/err" 'examples/stock.bas is a listing and no boot file; b2 try examples/stock.bas types it and runs it'
    mkdir -p folder
    gives 2 "try of a folder" ./b2 try folder
    has "try of a folder" "$work/err" 'try: folder is no file that can be read'
    [ ! -e /dev/full ] || gives 7 "try: what it shows can't be put" bash -c './b2 try examples/chart.bas <examples/chart.in >/dev/full'
    printf '10 FOR I=1 TO 400:PRINT "A LINE OF THIRTY BYTES OR SO, ALL":NEXT I\n' >long.bas
    gives 7 "try: a limit on the size of files" bash -c 'ulimit -f 4; ./b2 try long.bas'
    is_text "try: a limit on the size of files" "$work/err" 'try: write fault out.t01\n'
    # The folder for the outputs goes, also where a signal ends the command.
    printf '%s\n' '#!/bin/sh' 'pwd >"$PLACE"' 'kill -TERM $PPID' 'sleep 1' >ending
    chmod +x ending
    echo '10 END' >listing.bas
    gives 143 "try: ended by a signal" env PLACE="$PWD/place" B2_PROGRAM="$PWD/ending" "$top/tools/try" listing.bas
    if [ -s place ] && [ ! -e "$(cat place)" ]; then ok; else bad "try: ended by a signal" "the folder $(cat place) is left"; fi
}

# What is kept shows the same again, up to the RUN and from there on.
try_keeps() {
    answered 0 "try --keep" "$(cat examples/guess.in)" ./b2 try --keep kept/guess examples/guess.bas
    cp "$work/out" shown
    gives 0 "try --keep: the log runs again" ./b2 run kept/guess/boot.toml kept/guess/log again
    same "try --keep: the same summary" "$work/out" kept/guess/summary
    same "try --keep: the same transcript" again.t01 kept/guess/out.t01
    tail -c "$(wc -c <shown)" again.t01 >"$work/end"
    same "try --keep: what was shown" "$work/end" shown
    printf '10 GOTO 10\n' >listing.bas
    gives 20 "try --keep of an endless loop" ./b2 try --steps 2500 --keep kept/loop listing.bas
    gives 0 "try --keep of an endless loop: the log runs again" ./b2 run kept/loop/boot.toml kept/loop/log again
    printf '10 FOR I=1 TO 40:$BREAK:NEXT I\n20 PRINT "DONE"\n' >listing.bas
    gives 0 "try --keep of \$BREAK" ./b2 try --keep kept/break listing.bas
    cp "$work/out" shown
    gives 0 "try --keep of \$BREAK: the log runs again" ./b2 run kept/break/boot.toml kept/break/log again
    tail -c "$(wc -c <shown)" again.t01 >"$work/end"
    same "try --keep of \$BREAK: what was shown" "$work/end" shown
    gives 2 "try --keep in a file's place" ./b2 try --keep shown/x listing.bas
}

# How often an output came out otherwise.
otherwise_in() { # OUTPUT
    sed -n "s/^$1: otherwise in \([0-9]*\) of .*/\1/p" "$work/out"
}

vary_finds_what_depends_on_the_order() {
    gives 20 "vary: a lost update" ./b2 vary examples/orders.toml examples/lost.log 50
    is_empty "vary: a lost update" "$work/err"
    if [ "$(otherwise_in 'terminal 1')" -gt 25 ]; then ok; else bad "vary: a lost update" "not in most orders: $(cat "$work/out")"; fi
    if [ "$(otherwise_in 'terminal 2')" = 0 ]; then ok; else bad "vary: a lost update" "$(cat "$work/out")"; fi
    has "vary: a lost update" "$work/out" 'vary.log is the first log under which something came out otherwise'
    if grep -qE '^in order 1 the first line that differs at terminal 1 is line [0-9]+:$' "$work/out" && grep -q '^  the log:   THERE ARE 10 $' "$work/out" &&
        grep -qE '^  the order: THERE ARE [1-9] $' "$work/out"; then ok; else bad "vary: the line that differs" "$(cat "$work/out")"; fi
    cp vary.log first.log && cp "$work/out" told
    gives 20 "vary: the same orders once more" ./b2 vary examples/orders.toml examples/lost.log 50
    same "vary: the same seed, the same orders" "$work/out" told
    same "vary: the same seed, the same log" vary.log first.log
    gives 20 "vary: another seed" ./b2 vary --seed 2 examples/orders.toml examples/lost.log 50
    if cmp -s vary.log first.log; then bad "vary: another seed" "the same log"; else ok; fi
    gives 20 "vary: the same orders a third time" ./b2 vary examples/orders.toml examples/lost.log 50
    gives 0 "vary: what is kept runs" ./b2 run examples/orders.toml vary.log out
    if grep -q '^THERE ARE [1-9] $' out.t01; then ok; else bad "vary: what is kept shows the loss" "$(tail -n 3 out.t01)"; fi
    gives 0 "vary: a disk that is taken" ./b2 vary examples/orders.toml examples/counted.log 50
    is_text "vary: a disk that is taken" "$work/out" '41 rounds and 0 turns of the log come in another order
terminal 1: otherwise in 0 of 50\nterminal 2: otherwise in 0 of 50\ndisk D11: otherwise in 0 of 50\n'
    if [ -e vary.log ]; then bad "vary: an older log" "it is left"; else ok; fi
    gives 20 "vary: a printer" ./b2 vary examples/printers.toml examples/mixed.log 50
    if [ "$(otherwise_in 'printer 215')" -gt 25 ]; then ok; else bad "vary: a printer" "$(cat "$work/out")"; fi
}

# One order again shows what its log does.
vary_shows_an_order() {
    gives 20 "vary --show" ./b2 vary --show 3 examples/printers.toml examples/mixed.log
    cp "$work/out" shown
    gives 0 "vary --show: its log runs" ./b2 run examples/printers.toml vary.log out
    { printf -- '-- terminal 1\n' && cat out.t01 && echo; } >wanted
    same "vary --show: the first terminal" <(head -c "$(wc -c <wanted)" shown) wanted
    { printf -- '-- printer 215, otherwise\n' && cat out.p215; } >wanted
    same "vary --show: the printer" <(tail -c "$(wc -c <wanted)" shown) wanted
}

# What two partitions show that have nothing in common doesn't differ, whatever they do.
vary_leaves_alone_what_is_apart() {
    local line
    printf '%s\n' '10 FOR I=1 TO 9:$BREAK:NEXT I:PRINT "DONE"' '20 INPUT "N",N:PRINT N*N' '30 X=X+1:GOTO 30' >loops.bas
    {
        ./b2 type 1 loops.bas
        ./b2 type 2 loops.bas
        for line in 'type 1 RUN' 'type 2 RUN' 'rounds 30' 'type 1 7' 'rounds 3' 'type 2 9' 'rounds 5' 'halt 1' 'rounds 2' 'halt 2' \
            'turn 2 3' 'rounds 2' 'type 1 PRINT SGN(X)' 'type 2 PRINT SGN(X)' 'rounds 2'; do echo "$line"; done
    } >loops.log
    gives 0 "vary: nothing in common" ./b2 vary examples/two.toml loops.log 40
    is_text "vary: nothing in common" "$work/out" '44 rounds and 3 turns of the log come in another order
terminal 1: otherwise in 0 of 40\nterminal 2: otherwise in 0 of 40\n'
    gives 2 "vary: one partition" ./b2 vary examples/first.toml examples/count.log 5
    is_text "vary: one partition" "$work/err" \
        'vary: nothing of the log can come in another order: no turns or rounds of two partitions stand together in it\n'
    is_empty "vary: one partition" "$work/out"
    gives 0 "vary: a shared terminal" ./b2 vary examples/front.toml examples/front.log 5
    printf 'turn 1 1\ntype 1 PRINT 1\nturn 1 9\ntype 2 PRINT 2\nturn 2 9\n' >turns.log
    gives 2 "vary: turns that stand alone" ./b2 vary examples/two.toml turns.log 5
}

# Turns that stand one after another come in another order as rounds do, each partition's in its own order.
vary_moves_single_turns() {
    local line count
    while read -r line; do
        case $line in
            rounds*) for ((count = ${line#rounds }; count > 0; count--)); do printf 'turn 1 20\nturn 2 20\n'; done ;;
            *) printf '%s\n' "$line" ;;
        esac
    done <examples/lost.log >turns.log
    gives 0 "vary: single turns, as they stand" ./b2 run examples/orders.toml turns.log out
    has "vary: single turns, as they stand" out.t01 'THERE ARE 10'
    gives 20 "vary: single turns" ./b2 vary examples/orders.toml turns.log 50
    has "vary: single turns" "$work/out" '0 rounds and 50 turns of the log come in another order'
    if [ "$(otherwise_in 'terminal 1')" -gt 10 ]; then ok; else bad "vary: single turns" "$(cat "$work/out")"; fi
    printf '%s\n' 'turn 1 1' 'turn 1 2' 'turn 2 3' 'turn 1 4' 'turn 2 5' 'type 1 10 PRIMT' 'turn 1 4' 'turn 9 9' 'turn 2 6' >own.log
    gives 0 "vary: turns of one partition" ./b2 vary --show 3 examples/two.toml own.log
    # Each partition has the steps that it had, before each of the other lines.
    awk '/^turn/ { steps[$2] += $3; next } { print steps[1], steps[2]; print } END { print steps[1], steps[2] }' own.log >wanted
    awk '/^turn/ { steps[$2] += $3; next } /^rounds/ { next } { print steps[1], steps[2]; print } END { print steps[1], steps[2] }' vary.log >"$work/got"
    same "vary: turns of one partition" "$work/got" wanted
}

# What can't be written, and what ends a run, is told in a line.
vary_ends_in_a_message() {
    local place=$PWD
    mkdir -p closed/vary.log
    cd closed || return
    gives 2 "vary: a folder in the place of its log" ../b2 vary ../examples/orders.toml ../examples/lost.log 5
    has "vary: a folder in the place of its log" "$work/err" "vary: vary.log can't be written here"
    if grep -q Traceback "$work/err"; then bad "vary: a message" "$(cat "$work/err")"; else ok; fi
    cd "$place" || return
    printf '%s\n' 'rounds 2' 'type 1 RUN' 'rounds 9' >rounds.log
    write_stand_in - 'kill -INT $PPID; sleep 1; cksum'
    gives 130 "vary: Ctrl-C" env --default-signal=INT B2_PROGRAM="$PWD/stand_in" "$top/tools/vary" examples/two.toml rounds.log 3
    is_text "vary: Ctrl-C" "$work/err" 'vary: ended by Ctrl-C; nothing is told of the orders that were tried\n'
}

# A log in which two partitions want one disk, and the second has it just in time.
write_tight_log() { # LINES BEFORE
    local line='10 $OPEN /D11:FOR I=1 TO 100:NEXT I:$CLOSE:PRINT "DONE"'
    printf '%b' "$1" >tight.log
    printf '%s\n' "type 1 $line" "type 2 $line" 'rounds 3' 'type 1 RUN' 'type 2 RUN' 'rounds 12' >>tight.log
}

# Who comes too late for the disk gets more turns until all wait again, where the limits leave any.
vary_gives_more_turns() {
    local turns=4999
    write_tight_log ''
    gives 0 "vary: more turns" ./b2 vary examples/orders.toml tight.log 20
    is_text "vary: more turns" <(sed 1d "$work/out") \
        'terminal 1: otherwise in 0 of 20\nterminal 2: otherwise in 0 of 20\ndisk D11: otherwise in 0 of 20\n'
    gives 0 "vary: an order that wants eight rounds more" ./b2 vary --show 6 examples/orders.toml tight.log
    has "vary: an order that wants eight rounds more" vary.log 'rounds 8'
    # Turns of a partition that isn't there grant steps as well.
    write_tight_log "$(for ((; turns > 0; turns--)); do echo 'turn 9 1000'; done)\nturn 9 350\n"
    gives 20 "vary: no more turns" ./b2 vary examples/orders.toml tight.log 20
    has "vary: no more turns" "$work/out" "of them somebody may only have come too late for a key: the log's limits leave no more turns"
}

# Each partition keeps the steps that its own quota gives it, and one that passes turns isn't taken for one that waits.
vary_counts_quotas() {
    local line
    awk '/^\[\[partition\]\]/ { parts++ } { print } parts == 1 && /^globals/ { print "quota = 3" }' examples/two.toml >unlike.toml
    for line in 'type 1 10 GOTO 10' 'type 1 RUN' 'type 2 10 GOTO 10' 'type 2 RUN' 'rounds 8'; do echo "$line"; done >steps.log
    gives 0 "vary: quotas" ./b2 vary --show 1 unlike.toml steps.log
    awk '/^turn/ { steps[$2] += $3 } END { print steps[1], steps[2] }' vary.log >"$work/got"
    is_text "vary: the steps of each quota" "$work/got" '24 160\n'
    for line in 'type 1 10 $BREAK 200:PRINT "LATE"' 'type 1 RUN' 'type 2 10 FOR I=1 TO 9:NEXT I:PRINT "DONE"' 'type 2 RUN' 'rounds 30' \
        'type 1 PRINT 1' 'rounds 9'; do echo "$line"; done >poller.log
    gives 0 "vary: turns that are passed" ./b2 vary unlike.toml poller.log 20
    is_text "vary: turns that are passed" "$work/out" '39 rounds and 0 turns of the log come in another order
terminal 1: otherwise in 0 of 20\nterminal 2: otherwise in 0 of 20\n'
}

# A stand-in for the program, that says who is apart, and shows at terminal 1 what a command makes of the log.
write_stand_in() { # LIST COMMAND
    printf '%s\n' '#!/bin/sh' 'echo run >>runs' "$2 <\"\$3\" >\"\$4.t01\"" 'echo >"$4.t02"' "echo 'turns 1 steps 1 dropped 0 apart $1'" >stand_in
    chmod +x stand_in
    rm -f runs
}

stand_in() { # WORD..
    B2_PROGRAM=$PWD/stand_in "$top/tools/vary" "$@"
}

vary_reports_a_fault_of_the_machine() {
    printf '%s\n' 'rounds 2' 'type 1 RUN' 'rounds 9' >rounds.log
    write_stand_in 1,2 cksum
    gives 21 "vary: a fault of the machine" stand_in examples/two.toml rounds.log 3
    has "vary: a fault of the machine" "$work/out" \
        'a fault of the machine: partition 1 is apart, and terminal 1 came out otherwise: seed 1, order 1'
    if grep -q 'partition 2' "$work/out"; then bad "vary: a fault of the machine" "$(cat "$work/out")"; else ok; fi
    write_stand_in 2 cksum
    gives 20 "vary: no fault of who isn't apart" stand_in examples/two.toml rounds.log 3
    rm stand_in
    gives 127 "vary without the program" stand_in examples/two.toml rounds.log 3
}

# Who waits after each of many lines is asked by one run, beside that of the log itself and those of the orders.
vary_asks_little() {
    local count
    for ((count = 0; count < 500; count++)); do printf '%s\n' 'type 1 PRINT 1' 'rounds 3' 'type 2 PRINT 2' 'rounds 3'; done >long.log
    write_stand_in - true
    gives 0 "vary: a log of many lines" stand_in examples/two.toml long.log 10
    if [ "$(wc -l <runs)" -eq 12 ]; then ok; else bad "vary: a log of many lines" "$(wc -l <runs) runs"; fi
}

# Halts, resets and fronts stay where they are among the turns.
vary_keeps_what_else_happens() {
    local line terminal
    {
        printf '%s\n' '10 FOR I=1 TO 50:NEXT I:PRINT "DONE";#PART' '20 X=X+1:GOTO 20' >part.bas
        echo 'rounds 2'
        ./b2 type 1 part.bas
        echo 'front 1 2'
        ./b2 type 1 part.bas 2
        ./b2 type 2 part.bas 3
        for line in 'type 1 RUN' 'type 2 RUN' 'rounds 3' 'front 1 1' 'type 1 RUN' 'rounds 9' 'halt 1' 'halt 3' 'rounds 2' 'turn 2 7' \
            'type 1 PRINT SGN(X);#PART' 'type 2 PRINT SGN(X);#PART' 'rounds 2' 'front 1 2' 'rounds 1' 'reset 2' 'rounds 2'; do echo "$line"; done
    } >halts.log
    gives 0 "vary: halts and fronts run" ./b2 run examples/apart.toml halts.log first
    gives 0 "vary: halts and fronts" ./b2 vary examples/apart.toml halts.log 20
    is_text "vary: halts and fronts" <(sed 1d "$work/out") 'terminal 1: otherwise in 0 of 20\nterminal 2: otherwise in 0 of 20\n'
    gives 0 "vary: an order with halts and fronts" ./b2 vary --show 2 examples/apart.toml halts.log
    { printf -- '-- terminal 1\n' && cat first.t01 && printf '\n-- terminal 2\n' && cat first.t02 && echo; } >wanted
    same "vary: an order with halts and fronts" "$work/out" wanted
    grep -v -e '^turn' -e '^rounds' halts.log >wanted
    grep -v -e '^turn' -e '^rounds' vary.log >"$work/kept"
    same "vary: what an order keeps" "$work/kept" wanted
    gives 0 "vary: an order with halts and fronts again" ./b2 run examples/apart.toml vary.log again
    for terminal in 01 02; do
        same "vary: terminal $terminal of an order with halts and fronts" "again.t$terminal" "first.t$terminal"
    done
}

vary_refuses() {
    local words
    echo 'rounds 2' >rounds.log
    for words in '' 'examples/two.toml' 'examples/two.toml rounds.log 0' 'examples/two.toml rounds.log 10001' \
        'examples/two.toml rounds.log 5 5' 'nofile rounds.log' 'examples/two.toml nofile' '--seed 0 examples/two.toml rounds.log' \
        '--seed x examples/two.toml rounds.log' '--show 0 examples/two.toml rounds.log' '--fast examples/two.toml rounds.log' \
        'rounds.log rounds.log' '--seed'; do
        # shellcheck disable=SC2086
        gives 2 "vary $words" ./b2 vary $words
        is_empty "vary $words" "$work/out"
    done
    gives 0 "vary --help" ./b2 vary --help
    echo 'sing 1' >bad.log
    gives 5 "vary: a bad log" ./b2 vary examples/two.toml bad.log
    is_text "vary: a bad log" "$work/err" 'vary: bad log 1 2\nvary: bad.log:1: the first word is unknown: sing 1\n'
    printf '%s\n' 'rounds 100000' 'rounds 30000' >long.log
    gives 5 "vary: a log that grants too much" ./b2 vary examples/two.toml long.log
}

# Limits are named before anything is run.
vary_names_limits() {
    local count
    write_stand_in 1 cksum
    sed 's/^quota = .*/quota = 1/' examples/two.toml >slow.toml
    for count in 1 2 3 4 5; do echo 'rounds 100000'; done >long.log
    gives 2 "vary: a log that is too long" stand_in slow.toml long.log
    is_text "vary: a log that is too long" "$work/err" \
        'vary: with a line for each turn the log has up to 10000000 bytes, and at most 4194304 are taken\n'
    for ((count = 0; count < 4999; count++)); do echo 'turn 9 1000'; done >full.log
    echo 'turn 9 959' >>full.log
    cp full.log fuller.log
    echo 'rounds 1' >>full.log
    printf '%s\n' 'turn 9 1' 'rounds 1' >>fuller.log
    gives 2 "vary: a log that grants all steps" stand_in examples/two.toml fuller.log
    is_text "vary: a log that grants all steps" "$work/err" \
        'vary: the log grants 5000000 steps; at most 4999998 leave one for each partition, to ask whether it waits\n'
    if [ -e runs ]; then bad "vary: limits" "$(wc -l <runs) runs before they were named"; else ok; fi
    gives 2 "vary: a log that grants all steps but one" ./b2 vary examples/two.toml full.log
}

try_has_devices() {
    rm -f my.disk report.txt
    printf '10 DATASAVE DC OPEN T,#1,5,"KEPT":DATASAVE DC #1,7:DATASAVE DC #1,END\n20 SELECT PRINT 215:PRINT "A REPORT"\n' >listing.bas
    gives 0 "try --disk of a new disk" ./b2 try --disk my.disk --printer report.txt listing.bas
    if [ "$(wc -c <my.disk)" = 262144 ]; then ok; else bad "try --disk of a new disk" "$(wc -c <my.disk) bytes"; fi
    is_text "try --printer" report.txt 'A REPORT\n'
    cp my.disk before
    printf '10 DATALOAD DC OPEN T,#1,"KEPT":DATALOAD DC #1,N:PRINT N\n20 SCRATCH T,"KEPT"\n' >listing.bas
    gives 0 "try --disk of the disk that was left" ./b2 try --disk my.disk --keep kept/disk listing.bas
    is_text "try --disk of the disk that was left" "$work/out" 'RUN\n 7 \n:'
    if cmp -s my.disk before; then bad "try --disk" "the disk is as it was"; else ok; fi
    gives 0 "try --disk --keep runs again" ./b2 run kept/disk/boot.toml kept/disk/log again
    same "try --disk --keep runs again" again.t01 kept/disk/out.t01
    same "try --disk --keep leaves the same disk" again.D11 my.disk
    echo x >bad.disk
    gives 6 "try --disk of no image" ./b2 try --disk bad.disk listing.bas
    is_text "try --disk of no image" "$work/err" "try: bad image D11 1\ntry: bad.disk: the length isn't 256 times 16 to 262,144\n"
    is_text "try --disk of no image leaves it" bad.disk 'x\n'
    gives 2 "try --disk of a folder" ./b2 try --disk kept listing.bas
    gives 2 "try --disk in no folder" ./b2 try --disk nofolder/my.disk listing.bas
    gives 2 "try --printer in no folder" ./b2 try --printer nofolder/report listing.bas
    gives 2 "try --disk without a file" ./b2 try --disk
    gives 2 "try --keep of a disk in a folder of another form" ./b2 try --disk my.disk --keep 'a b' listing.bas
}

# Runs try with a program that changes the disk's file before its first run.
try_while_changing() { # WORD..
    rm -f is_changed
    printf '%s\n' '#!/bin/sh' '[ -e "$CHANGING" ] || { : >"$CHANGING"; echo other >"$DISK"; }' \
        'exec "$PROGRAM" "$@"' >changing
    chmod +x changing
    CHANGING=$PWD/is_changed DISK=$PWD/my.disk PROGRAM=$top/crates/b2_mvp/out/b2_mvp B2_PROGRAM=$PWD/changing "$top/tools/try" "$@"
}

# A user's disk is written where something changed on it, and where nobody else wrote to it meanwhile.
try_keeps_disks_whole() {
    rm -f my.disk* report.txt
    printf '10 DATASAVE DC OPEN T,#1,5,"KEPT":DATASAVE DC #1,7:DATASAVE DC #1,END\n' >saves.bas
    printf '10 DATALOAD DC OPEN T,#1,"KEPT":DATALOAD DC #1,N:PRINT N\n' >reads.bas
    printf '10 SCRATCH T,"KEPT"\n' >scratches.bas
    printf '10 DATASAVE DC OPEN T,5,"MORE"\n' >more.bas
    ./b2 try --disk my.disk saves.bas >/dev/null
    chmod 640 my.disk
    stat -c '%i %Y %a' my.disk >before.stat
    gives 0 "try --disk: a run that only reads" ./b2 try --disk my.disk reads.bas
    stat -c '%i %Y %a' my.disk >after.stat
    same "try --disk: a disk on which nothing changed isn't written" after.stat before.stat
    gives 0 "try --disk: a run that writes" ./b2 try --disk my.disk scratches.bas
    stat -c '%u:%g %a' my.disk >after.stat
    is_text "try --disk: the mode and the owner stay" after.stat "$(id -u):$(id -g) 640\n"
    if [ "$(id -u)" -eq 0 ]; then
        chown 1234:1234 my.disk
        gives 0 "try --disk of another owner" ./b2 try --disk my.disk more.bas
        stat -c '%u:%g %a' my.disk >after.stat
        is_text "try --disk of another owner" after.stat '1234:1234 640\n'
    fi
    cp my.disk before.disk
    chmod 444 my.disk
    gives 2 "try --disk that can't be written" ./b2 try --disk my.disk scratches.bas
    is_empty "try --disk that can't be written" "$work/out"
    has "try --disk that can't be written" "$work/err" "my.disk can't be written"
    chmod 644 my.disk
    printf '10 DATASAVE DC OPEN T,5,"LEAST"\n' >least.bas
    same "try --disk that can't be written" my.disk before.disk
    gives 2 "try --disk that is changed meanwhile" try_while_changing --disk my.disk least.bas
    has "try --disk that is changed meanwhile" "$work/err" 'my.disk was changed by another command meanwhile and stays so; what was left here is'
    is_text "try --disk that is changed meanwhile" my.disk 'other\n'
    if grep -aq LEAST my.disk.lost; then ok; else bad "try --disk that is changed meanwhile" "what was left isn't kept"; fi
    printf '10 PRINT "RAN"\n' >listing.bas
    mkdir -p folder
    gives 2 "try --printer of a folder" ./b2 try --printer folder listing.bas
    is_empty "try --printer of a folder: nothing is run" "$work/out"
    has "try --printer of a folder" "$work/err" 'folder is a folder'
    mkdir -p kept/folder/log
    gives 2 "try --keep where a folder stands" ./b2 try --keep kept/folder listing.bas
    is_empty "try --keep where a folder stands: nothing is run" "$work/out"
}

# What is put is handed on as it is, with the empty lines at its end.
screen_and_check_hand_on() {
    printf 'READY\n:' >shot
    gives 0 "screen: a transcript" ./b2 screen shot
    is_text "screen: a transcript" "$work/out" 'READY\n:\n\n\n\n\n\n\n\n\n\n\n\n\n\n\n\n\n\n\n\n\n\n\n'
    is_empty "screen: a transcript" "$work/err"
    gives 0 "check: no image" ./b2 check shot
    is_text "check: no image" "$work/out" 'bad 1\n'
    gives 2 "screen: a file that isn't there" ./b2 screen nofile
    is_text "screen: a file that isn't there" "$work/err" 'missing nofile\n'
    gives 3 "check: a folder" ./b2 check .
    gives 1 "screen: no word" ./b2 screen
    is_empty "screen: no word" "$work/out"
    has "screen: no word" "$work/err" './b2 screen out.t01'
    gives 1 "check: two words" ./b2 check shot shot
    has "check: two words" "$work/err" './b2 check out.D11'
    [ ! -e /dev/full ] || gives 7 "screen: lines that can't be put" bash -c './b2 screen shot >/dev/full'
}

# Bad input of fifty seeds, and the first twenty refusals of memory and of calls: nothing breaks.
hostile_finds_nothing() {
    gives 0 "hostile seeds" "$top/tools/hostile" seeds 1 50
    has "hostile seeds" "$work/out" '50 runs, 0 wrong'
    gives 0 "hostile memory" "$top/tools/hostile" memory 20
    has "hostile memory" "$work/out" ' 0 wrong'
}

# Tries seeds on a program that breaks something before or after it runs.
hostile_meets() { # WHAT BEFORE AFTER TOLD
    printf '%s\n' '#!/bin/sh' "$2" '"$PROGRAM" "$@"' 'status=$?' "$3" 'exit "$status"' >breaking
    chmod +x breaking
    gives 20 "hostile: $1" env PROGRAM="$top/crates/b2_mvp/out/b2_mvp" B2_PROGRAM=./breaking "$top/tools/hostile" seeds 1 25
    has "hostile: $1" "$work/out" "$4"
    if [ -n "$(ls -d hostile.[0-9]* 2>/dev/null)" ]; then ok; else bad "hostile: $1" "no input is left"; fi
    rm -rf hostile.[0-9]*
}

hostile_finds_what_breaks() {
    hostile_meets "a file after a refusal" '' '[ "$status" -ne 4 ] || echo x >stray' 'and files changed'
    hostile_meets "an input that changes" '' '[ "$1" != run ] || [ "$status" -ne 0 ] || echo >>log' 'and the files are'
    hostile_meets "an output that is missing" '' '[ "$1" != run ] || rm -f out.t*' 'and the files are'
    hostile_meets "another number" '' '[ "$status" -ne 5 ] || status=12' 'no status with its line'
    hostile_meets "another line" '[ "$1" != run ] || echo x >&2' '' 'no status with its line'
    hostile_meets "an image that is not good" '' '[ ! -f out.D11 ] || echo x >>out.D11' 'and the image out.D11 fails 1'
    hostile_meets "other words on an image" '[ "$1" != check ] || { echo good; exit 0; }' '' 'and it fails'
    hostile_meets "another transcript alone" '' '[ "$1" != alone ] || for file in alone.t*; do echo x >>"$file"; done' 'another transcript'
    printf '%s\n' '#!/bin/sh' 'exec "$PROGRAM" "$@"' >breaking
    # The shell that runs this ends with a status of its own where memory is refused.
    gives 20 "hostile memory: another status" env PROGRAM="$top/crates/b2_mvp/out/b2_mvp" B2_PROGRAM=./breaking "$top/tools/hostile" memory 1
    has "hostile memory: another status" "$work/out" 'WRONG the day of an office, allocation 1'
}

hostile_refuses() {
    local words
    for words in '' 'all' 'seeds x' 'seeds 0' 'seeds 1 x' 'seeds 2 1' 'seeds 1 2 3' 'memory x' 'memory 1 2' '--seed'; do
        # shellcheck disable=SC2086
        gives 2 "hostile $words" "$top/tools/hostile" $words
        is_empty "hostile $words" "$work/out"
    done
    has "hostile: words that are no command" "$work/err" 'usage: tools/hostile memory'
    gives 0 "hostile --help" "$top/tools/hostile" --help
    gives 2 "hostile: no program" env B2_PROGRAM=./nothing "$top/tools/hostile" seeds
    gives 2 "hostile memory: another program" env B2_PROGRAM="$(command -v true)" "$top/tools/hostile" memory 1
    gives 2 "hostile memory: no compiler" env CC=nothing "$top/tools/hostile" memory 1
    is_text "hostile memory: no compiler" "$work/err" 'hostile: there is no C compiler nothing, which builds what refuses calls\n'
    gives 0 "hostile seeds: no compiler" env CC=nothing "$top/tools/hostile" seeds 7
    gives 7 "hostile: files can't be written" \
        bash -c 'set -o pipefail; (ulimit -f 0; "$1" seeds 1 3) 2>&1 | cat' - "$top/tools/hostile"
    has "hostile: files can't be written" "$work/out" 'File too large'
    [ ! -e /dev/full ] || gives 7 "hostile: nothing can be put" bash -c '"$1" seeds 1 3 >/dev/full' - "$top/tools/hostile"
}

# Ctrl-C ends it without a folder left behind.
hostile_ends() {
    local status count=0
    mkdir -p rooms
    # All folders of this run stand in one place.
    printf '%s\n' 'import os, runpy, sys, tempfile' 'make = tempfile.mkdtemp' \
        'tempfile.mkdtemp = lambda suffix=None, prefix=None, dir=None: make(suffix, prefix, "rooms" if dir in (None, "/dev/shm") else dir)' \
        'sys.argv[:] = sys.argv[1:]' 'sys.path.insert(0, os.path.dirname(sys.argv[0]))' \
        'runpy.run_path(sys.argv[0], run_name="__main__")' >in_one_place.py
    python3 -B in_one_place.py "$top/tools/hostile" seeds 1 100000 >"$work/out" 2>"$work/err" &
    while [ -z "$(ls rooms)" ] && [ "$count" -lt 100 ]; do sleep 0.1 && count=$((count + 1)); done
    if [ -n "$(ls rooms)" ]; then ok; else bad "hostile: Ctrl-C" "no folder was made"; fi
    kill -INT "$!"
    wait "$!"
    status=$?
    if [ "$status" -eq 130 ]; then ok; else bad "hostile: Ctrl-C" "status $status"; fi
    if [ -z "$(ls rooms)" ] && [ -z "$(ls -d hostile.[0-9]* 2>/dev/null)" ]; then ok; else bad "hostile: Ctrl-C" "a folder is left"; fi
}

long_lines_are_typed
screen_and_check_hand_on
hostile_finds_nothing
hostile_finds_what_breaks
hostile_refuses
hostile_ends
run_tells_dropped
blank_writes_what_the_machine_makes
run_meets_a_limit_of_files
run_meets_a_limit_of_memory
try_runs_a_listing
try_answers
try_passes_turns
try_gives_special_keys
try_ends_with_its_status
try_refuses
try_keeps
try_has_devices
try_keeps_disks_whole
vary_finds_what_depends_on_the_order
vary_shows_an_order
vary_leaves_alone_what_is_apart
vary_gives_more_turns
vary_counts_quotas
vary_moves_single_turns
vary_ends_in_a_message
vary_reports_a_fault_of_the_machine
vary_asks_little
vary_keeps_what_else_happens
vary_refuses
vary_names_limits
