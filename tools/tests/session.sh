# Sessions of live in a pseudo terminal, driven by keys, and their logs run again with equal bytes.

patience=${B2_PATIENCE:-60}

# Begins a session with these words. Its process is told in the file pid, its status in the file ended. What a script runs in
# the background doesn't get the signal INT, unless that is given back.
begin_session() { # WORD..
    rm -f keys pid seen before after ended
    : >seen
    mkfifo keys
    script -qfc "stty cols 80 rows ${rows:-24}; stty -g >before; (exec env --default-signal=INT sh -c 'echo \$\$ >pid; exec ./b2 live --log ${log:-s.log} $*'); echo \$? >ended
        stty -g >after" /dev/null <keys >seen 2>&1 &
    script_process=$!
    exec 4>keys
    place=0
}

# Waits until the text is shown after the place that was reached, and goes past it.
see() { # TEXT
    local text until=$((SECONDS + patience)) rest
    printf -v text '%b' "$1"
    while :; do
        rest=$(tail -c +$((place + 1)) seen | tr -d '\0'; echo .)
        case $rest in
            *"$text"*)
                rest=${rest%%"$text"*}
                place=$((place + ${#rest} + ${#text}))
                ok
                return 0
                ;;
        esac
        [ "$SECONDS" -lt "$until" ] || break
        sleep 0.05
    done
    bad "$session" "no \"$1\" after: $(tail -c +$((place + 1)) seen | tail -c 200 | cat -v)"
    return 1
}

send() { # TEXT
    printf '%b' "$1" >&4
}

# Keys from a file, up to the first that gives another thing to see.
play() { # FILE
    local word text
    while read -r word text; do
        case $word in
            send) send "$text" ;;
            see) see "${text:- }" || return ;;
        esac
    done < <(sed 's/^see $/see  /' "$1")
}

# Waits for the end, which is to have the status; the terminal is as it was before.
end_session() { # STATUS
    exec 4>&-
    wait "$script_process"
    if [ "$(cat ended)" = "$1" ]; then ok; else bad "$session" "ended with $(cat ended), not $1"; fi
    same "$session: the terminal is as before" after before
}

# The log shows the same again, by the program itself.
replays() {
    local shown
    gives 0 "$session: the log runs again" ./b2 run s.log.toml s.log again
    has "$session: no key is lost" "$work/out" 'dropped 0'
    for shown in s.log.t*; do
        [ "$shown" = s.log.toml ] || same "$session: the same transcript ${shown#s.log.}" "again${shown#s.log}" "$shown"
    done
}

one_terminal() {
    session="a session at one terminal"
    rm -f s.log*
    begin_session
    play "$top/tools/tests/keyboard.keys" || kill "$(cat pid)"
    end_session 0
    replays
    session="a session gone on with"
    cp s.log first.log
    begin_session
    see 'PASTED\r' && send 'LIST 190\r' && see 'LIST 190\r' && see '190 PRINT "PASTED":END\r'
    send '\004'
    end_session 0
    replays
    head -c "$(wc -c <first.log)" s.log >"$work/front"
    same "$session: the log goes on" "$work/front" first.log
}

two_terminals() {
    session="a session at two terminals"
    rm -f s.log*
    begin_session examples/two.toml
    see READY && see : && send '10 FOR I=1 TO 300:NEXT I:PRINT "ONE";#PART:GOTO 10\r' && see '\n:' && send 'RUN\r' && see 'ONE 1 \r' &&
        send '\024' && see '\033[H\033[2J' && see READY && see : && send 'PRINT "HERE IS";#PART\r' && see 'HERE IS 2 \r' &&
        send '\024' && see 'ONE 1 \r' && send '\003' && see HALT
    send '\004'
    end_session 0
    replays
}

shared_terminal() {
    session="a session of two partitions at one terminal"
    rm -f s.log*
    begin_session examples/front.toml
    see READY && see : && send '10 FOR I=1 TO 5000:NEXT I:PRINT "DONE"\r' && see '\n:' && send 'RUN\r' && see 'RUN\r' &&
        send '\020' && see READY && send 'PRINT #PART\r' && see ' 2 \r' && send '\020' && see 'DONE\r' &&
        send '$RELEASE TERMINAL\r' && see 'TERMINAL\r' && send 'PRINT #PART\r' && see ' 2 \r' &&
        send '\020' && send 'PRINT #PART\r' && see ' 1 \r'
    send '\004'
    end_session 0
    replays
}

# A program that passes turns goes on without a key, alone and beside one that waits, and HALT stops one that passes.
passed_turns() {
    session="a session with a program that passes turns"
    rm -f s.log*
    begin_session
    see READY && see : && send '10 FOR I=1 TO 3:$BREAK 100:NEXT I:PRINT "ON";I\r' && see '\n:' && send 'RUN\r' && see 'RUN\r' &&
        see 'ON 4 ' && see '\n:' && send '10 KEYIN A$,100,100:$BREAK 20:GOTO 10\r' && see '\n:' &&
        send '100 PRINT "A KEY"\r' && see '\n:' && send 'RUN\r' && see 'RUN\r' && send 'X' && see 'A KEY' && see '\n:' &&
        send '10 $BREAK 255:GOTO 10\r' && see '\n:' && send 'RUN\r' && see 'RUN\r' && send '\003' && see HALT
    send '\004'
    end_session 0
    replays
    session="a session of one that passes turns beside one that waits"
    rm -f s.log*
    begin_session examples/two.toml
    see READY && see : && send '10 FOR I=1 TO 3:$BREAK 100:NEXT I:PRINT "ON";I\r' && see '\n:' && send 'RUN\r' && see 'ON 4 '
    send '\004'
    end_session 0
    replays
}

# What was saved on the disk and printed is there afterwards, and so are both in the session that goes on.
devices() {
    session="a session with a disk and a printer"
    rm -f s.log* my.disk report.txt
    begin_session --disk my.disk --printer report.txt
    see READY && see : && send 'DATASAVE DC OPEN T,5,"KEPT":DATASAVE DC 7:DATASAVE DC END\r' && see 'DC END\r' && see '\n:' &&
        send '\017' && see '[nothing new at printer 215]' &&
        send 'SELECT PRINT 215:PRINT "A REPORT"\r' && see '"A REPORT"\r' && see '\n:' &&
        send '\017' && see '[printer 215]' && see 'A REPORT\r' && send '\017' && see '[nothing new at printer 215]'
    send '\004'
    end_session 0
    replays
    is_text "$session: what was printed" report.txt 'A REPORT\n'
    same "$session: the disk" my.disk again.D11
    session="a session that goes on with its devices"
    begin_session
    see READY && see 'A REPORT"\r' && see : && send '\017' && see '[nothing new at printer 215]' &&
        send 'DATALOAD DC OPEN T,"KEPT":DATALOAD DC N:PRINT N\r' && see 'PRINT N\r' && see '\n:' &&
        send '\017' && see '[printer 215]' && see ' 7 ' && send 'SCRATCH T,"KEPT"\r' && see 'KEPT"\r' && see '\n:'
    send '\004'
    end_session 0
    replays
    is_text "$session: what was printed" report.txt 'A REPORT\n 7 \n'
    same "$session: the disk" my.disk again.D11
    session="a session with the disk of another one"
    cp my.disk before.disk
    mkdir -p first && mv s.log* first
    begin_session --disk my.disk
    see READY && see : && send 'LIST DC T\r' && see KEPT && see '\n:' && send 'DATASAVE DC OPEN T,5,"MORE"\r' && see 'MORE"\r' && see '\n:'
    send '\004'
    end_session 0
    replays
    same "$session: the disk as it was before" s.log.D11.before before.disk
    same "$session: the disk" my.disk again.D11
    rm -f s.log* && mv first/* .
    session="a session whose disk was changed since"
    cp my.disk before.disk
    begin_session
    see 'my.disk is not as the session left it'
    end_session 2
    same "$session: the disk stays" my.disk before.disk
    session="a session that began with another disk"
    begin_session --disk before.disk
    see 's.log began with other devices'
    end_session 2
    session="a session whose disk is changed meanwhile"
    rm -f s.log*
    begin_session --disk my.disk
    see READY && see : && send 'SCRATCH T,"MORE"\r' && see 'MORE"\r' && see '\n:' && rm my.disk && echo other >my.disk && send '\004' &&
        see 'my.disk was changed by another command meanwhile and stays so'
    end_session 2
    is_text "$session: the disk stays" my.disk 'other\n'
    ./b2 run s.log.toml s.log again >/dev/null
    same "$session: what the session left" my.disk.lost again.D11
    session="a session that only looks at its disk"
    rm -f s.log* my.disk
    printf '%s\n' '10 DATASAVE DC OPEN T,5,"KEPT"' >saves.bas
    ./b2 try --disk my.disk saves.bas >/dev/null
    stat -c '%i %y' my.disk >before.stat
    begin_session --disk my.disk
    see READY && see : && send 'LIST DC T\r' && see KEPT && see '\n:'
    send '\004'
    end_session 0
    stat -c '%i %y' my.disk >after.stat
    same "$session: it isn't written" after.stat before.stat
    session="a session whose disk can't be written"
    rm -f s.log*
    chmod 444 my.disk
    begin_session --disk my.disk
    see "my.disk can't be written"
    end_session 2
    session="a session without a printer"
    rm -f s.log*
    begin_session
    see READY && see : && send '\017' && see '[there is no printer]'
    send '\004'
    end_session 0
}

signals() {
    local signal number
    for signal in TERM:143 HUP:129 INT:130; do
        number=${signal#*:} signal=${signal%:*}
        session="a session that ends by $signal while a program runs"
        rm -f s.log*
        begin_session
        see READY && see : && send '10 GOTO 10\rRUN\r' && see 'RUN\r'
        kill -s "$signal" "$(cat pid)"
        end_session "$number"
        replays
    done
    session="a session that ends by a signal while all wait"
    rm -f s.log*
    begin_session
    see READY && see : && send '20' && see 20
    kill "$(cat pid)"
    end_session 143
    replays
}

# A log whose steps are almost used up says so, and once they are a line can still be listed, and the session goes on.
limits() {
    session="a session near the log's limit"
    rm -f s.log*
    printf 'rounds 4940\n' >s.log
    begin_session
    see 'goes on with s.log (0 keys, ' && see READY && see : && send 'A' && see "of the log's 5000000 steps are left" &&
        send '\r10 GOTO 10\rRUN\r' && see "the log's steps are used up" && see HALT && see '\n:' && send 'LIST\r' && see '10 GOTO 10' &&
        see '\n:' && send 'RUN\r' && see 'so the program was halted' && send 'PRINT "STILL";7\r' && see 'STILL 7'
    send '\004'
    end_session 20
    replays
    if [ "$(grep -c "steps are used up: programs" seen)" = 1 ]; then ok; else bad "$session" "not told once"; fi
    session="a session near the log's limit of bytes"
    yes "# $(bytes 97)" | head -c 4094400 >s.log
    begin_session
    see READY && see : && send '10 GOTO 10\rRUN\r' && see "the log's bytes are used up" && send 'LIST\r' && see '\n10 GOTO 10' && see '\n:'
    send '\004'
    end_session 20
    replays
    session="a log that is refused"
    echo 'turn' >s.log
    begin_session
    see 'bad log 1 3' && see 's.log:1: arguments are missing, surplus or misspelled: turn'
    end_session 5
}

# A log goes on with the boot file that it began with, and with no other.
boots() {
    session="a session that is offered another boot file"
    rm -f s.log*
    begin_session examples/first.toml
    see 'new session in s.log' && see READY && see : && send 'PRINT 5\r' && see ' 5 '
    send '\004'
    end_session 0
    replays
    same "$session: the boot file is kept" s.log.boot examples/first.toml
    cp s.log.toml first.toml
    cp s.log first.log
    begin_session examples/two.toml
    see 's.log began with the boot file examples/first.toml, and not with examples/two.toml; --log FILE begins another session'
    end_session 2
    same "$session: its boot file stays" s.log.toml first.toml
    same "$session: its log stays" s.log first.log
    session="a session whose boot file is refused"
    sed 's/^quota/colour = 3\n&/' examples/first.toml >bad.toml
    mkdir -p kept && mv s.log* kept
    begin_session bad.toml
    see 'live: bad boot 2' && see "live: bad.toml:$(grep -n colour bad.toml | cut -d: -f1): no key is called colour"
    end_session 4
    if [ -n "$(ls s.log* 2>/dev/null)" ]; then bad "$session" "$(ls s.log*) is left"; else ok; fi
    mv kept/* .
    session="a session that goes on with its boot file"
    begin_session examples/first.toml
    see 'goes on with s.log (8 keys, ' && see ' 5 '
    send '\004'
    end_session 0
    replays
}

# What a run of the boot file would leave is left beside the log, and the log begins again with the images as they were.
images() {
    session="a session whose boot file names an image"
    rm -f s.log* out.*
    ./b2 run examples/disk.toml examples/disk.log out >/dev/null
    cp out.D11 before.disk
    begin_session examples/kept.toml
    see READY && see : && send 'DATASAVE DC OPEN T,5,"KEPT"\r' && see 'KEPT"\r' && see '\n:'
    send '\004'
    end_session 0
    replays
    same "$session: the image stays" out.D11 before.disk
    same "$session: the image is kept" s.log.D11.before before.disk
    same "$session: the disk is left" s.log.D11 again.D11
    if cmp -s s.log.D11 before.disk; then bad "$session" "the disk that is left has no new file"; else ok; fi
    session="a session that goes on with its image"
    rm out.D11
    begin_session
    see 'KEPT"\r' && see '\n:' && send 'DATASAVE DC OPEN T,5,"MORE"\r' && see 'MORE"\r' && see '\n:'
    send '\004'
    end_session 0
    replays
    if grep -q D83 s.log.t01; then bad "$session" "a file was made twice"; else ok; fi
    session="a session that starts with a program"
    rm -f s.log*
    ./b2 run examples/depot.toml examples/depot.log out >/dev/null
    begin_session examples/nextday.toml
    see 'PIECES? ' && send 'SAWS,-4\r' && see 'NOW 10' && see 'PIECES? ' && send '\003' && see HALT
    send '\004'
    end_session 0
    replays
    same "$session: the printout is left" s.log.p215 again.p215
    same "$session: the disk is left" s.log.D11 again.D11
}

# A line that is half typed is no part of what is typed after a halt or a reset.
half_typed_lines() {
    local key word
    for key in '\003:HALT' '\022:READY'; do
        word=${key#*:} key=${key%:*}
        session="a half-typed answer before $word"
        rm -f s.log*
        begin_session
        see READY && see : && send '10 INPUT "AGE",A\r' && see '\n:' && send 'RUN\r' && see 'AGE? ' && send '12' && see 12 && send "$key" &&
            see "$word" && see '\n:' && send 'PRINT "HELLO"\r' && see 'HELLO"\r' && see 'HELLO\r' && see '\n:' && send 'LIST\r' && see '10 INPUT'
        send '\004'
        end_session 0
        replays
        if grep -q '^12 ' s.log.t01; then bad "$session" "a line 12 was made"; else ok; fi
        session="a line typed ahead of $word"
        rm -f s.log*
        begin_session
        see READY && see : && send '10 PRINT "ON":GOTO 10\r' && see '\n:' && send 'RUN\r' && see 'ON\r' && send '12' && see 'ON\r' && send "$key" &&
            see "$word" && see '\n:' && send 'PRINT "HELLO"\r' && see 'HELLO"\r' && see 'HELLO\r'
        send '\004'
        end_session 0
        replays
    done
}

# A halt comes before keys that wait, and keys that were dropped are told.
halts_come_first() {
    session="a halt after a paste into a running program"
    rm -f s.log*
    begin_session
    see READY && see : && send '10 PRINT "ON":GOTO 10\r' && see '\n:' && send 'RUN\r' && see 'ON\r' &&
        send "$(printf 'ABCDEFGHIJ%.0s' {1..30})" && see 'keys found a full queue and are lost' && send "$(printf 'ABCDEFGHIJ%.0s' {1..30})\\003" &&
        see HALT && see : && send 'PRINT "FREE"\r' && see 'FREE"\r' && see 'FREE\r'
    send '\004'
    end_session 0
}

# A second session at a log is refused while the first one lasts, and a lock that was left behind is no hindrance.
locks() {
    local first
    session="a second session at one log"
    rm -f s.log*
    begin_session
    see READY && see :
    first=$(cat pid)
    gives 2 "$session" script -qec './b2 live --log s.log' /dev/null
    has "$session" "$work/out" "live: the process $first has "
    has "$session" "$work/out" "/s.log; --log FILE begins another session"
    send 'PRINT 5\r' && see ' 5 '
    send '\004'
    end_session 0
    replays
    if [ -e s.log.lock ]; then bad "$session" "the lock is left"; else ok; fi
    session="a session with a lock that was left behind"
    echo 999999 >s.log.lock
    begin_session
    see 'the process 999999 left s.log.lock behind; it is taken over' && see 'goes on with s.log'
    send '\004'
    end_session 0
    if [ -e s.log.lock ]; then bad "$session" "the lock is left"; else ok; fi
    session="two sessions at one disk"
    rm -f s.log* my.disk*
    begin_session --disk my.disk
    see READY && see : && send 'DATASAVE DC OPEN T,5,"FIRST"\r' && see 'FIRST"\r' && see '\n:'
    ./b2 try --disk my.disk <(:) 2>/dev/null
    printf '%s\n' '10 DATASAVE DC OPEN T,5,"OTHER"' >other.bas
    ./b2 try --disk my.disk other.bas >/dev/null
    cp my.disk other.disk
    send '\004' && see 'what was left here is' && see 'my.disk.lost'
    end_session 2
    same "$session: the disk of the first to leave it" my.disk other.disk
    if grep -aq FIRST my.disk.lost; then ok; else bad "$session" "the other disk isn't kept"; fi
}

# The special function keys that have no key of today's keyboards, and the row below the screen.
numbers_and_status() {
    session="special function keys by their numbers"
    rm -f s.log*
    begin_session
    see READY && see : && send "10 DEFFN'0\"PRINT 70\"\r20 DEFFN'13\"PRINT 83\"\r30 DEFFN'31\"PRINT 101\"\r40 DEFFN'3\"PRINT 73\"\r" && see '73"\r' &&
        see '\n:' && send '\x1b0' && see 'PRINT 70' && send '\r' && see ' 70 ' && send '\x1b13' && see 'PRINT 83' && send '\r' && see ' 83 ' &&
        send '\x1b31' && see 'PRINT 101' && send '\r' && see ' 101 ' && send '\x1b3' && see 'PRINT 73' && send '\r' && see ' 73 '
    send '\004'
    end_session 0
    replays
    session="the row below the screen"
    rm -f s.log*
    rows=30
    begin_session
    see READY && see : && see '\033[30;1H\033[7m terminal 1   partition 1   READY' && send 'PRINT (1\r' && see 'ERR S11 COL 9' &&
        see '\033[30;1H\033[7m terminal 1   partition 1   READY   S11: a closing parenthesis is missing ' && send '10 GOTO 10\rRUN\r' && see '\033[30;1H\033[7m terminal 1   partition 1   RUN ' &&
        send "$(bytes 300)" && see 'partition 1   RUN   172 keys dropped' && send '\003' && see 'partition 1   READY   172 keys dropped'
    send '\004' && see '\033[r'
    end_session 0
    session="a session without that row"
    rm -f s.log*
    begin_session --no-status
    see READY && see : && send 'PRINT 5\r' && see ' 5 '
    send '\004'
    end_session 0
    if grep -q 'partition 1   ' seen; then bad "$session" "a row is shown"; else ok; fi
    rows=24
}

if command -v script >/dev/null 2>&1; then
    one_terminal
    two_terminals
    shared_terminal
    passed_turns
    devices
    signals
    limits
    boots
    images
    half_typed_lines
    halts_come_first
    locks
    numbers_and_status
else
    bad "sessions" "the command script, which gives them a terminal, is not there"
fi
