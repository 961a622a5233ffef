# The commands type, lint, list and pack, what is told of refused files, and building, on good and bad input.

type_spells_a_log() {
    printf '10 PRINT\t"A"\r\n\n   \nCLEAR\n20 END' >listing.bas
    gives 0 "type: a listing" ./b2 type 1 listing.bas
    is_text "type: tabs, carriage returns, empty lines, no newline at the end" "$work/out" \
        'turn 1 2\ntype 1 10 PRINT "A"\nturn 1 4\ntype 1 CLEAR\nturn 1 1000\nturn 1 2\ntype 1 20 END\nturn 1 4\n'
    gives 0 "type: another partition" ./b2 type 12 listing.bas 16
    has "type: another partition" "$work/out" 'type 12 20 END'
    has "type: another partition" "$work/out" 'turn 16 4'
    printf '20 B\n10 A\n' >order.bas
    gives 0 "type: the order of the file" ./b2 type 2 order.bas
    is_text "type: the order of the file" "$work/out" 'turn 2 2\ntype 2 20 B\nturn 2 4\ntype 2 10 A\nturn 2 4\n'
    : >empty.bas
    gives 0 "type: an empty listing" ./b2 type 1 empty.bas
    is_text "type: an empty listing" "$work/out" 'turn 1 2\n'
}

type_refuses() {
    local words
    for words in '' '1' '1 listing.bas 1 1' '0 listing.bas' '13 listing.bas' '01 listing.bas' 'x listing.bas' \
        '1 listing.bas 17' '1 listing.bas 0' '1 nofile' '1 .'; do
        # shellcheck disable=SC2086
        gives 2 "type $words" ./b2 type $words
        is_empty "type $words" "$work/out"
    done
    printf '10 PRINT "OK"\n20 PRINT "\344"\n' >listing.bas
    gives 2 "type: a byte that no key gives" ./b2 type 1 listing.bas
    is_empty "type: a byte that no key gives" "$work/out"
    is_text "type: a byte that no key gives" "$work/err" \
        'type: listing.bas:2: the line has a byte that no key gives: hexadecimal E4 at byte 11\n'
    printf '10 PRINT "\303\244\342\202\254"\n' >listing.bas
    gives 2 "type: a sign that stands for nothing" ./b2 type 1 listing.bas
    has "type: a sign that stands for nothing" "$work/err" 'listing.bas:1: the line has a byte that no key gives: hexadecimal E2 at byte 13'
    printf '10 A\000B\n' >listing.bas
    gives 2 "type: the byte 00" ./b2 type 1 listing.bas
    has "type: the byte 00" "$work/err" 'listing.bas:1: the line has a byte that no key gives: hexadecimal 00 at byte 5'
    printf '10 A\rB\n' >listing.bas
    gives 2 "type: a carriage return inside of a line" ./b2 type 1 listing.bas
    printf '10 END\n20 REM %s\n' "$(bytes 250)" >listing.bas
    gives 2 "type: a line of 257 bytes" ./b2 type 1 listing.bas
    is_empty "type: a line of 257 bytes" "$work/out"
    is_text "type: a line of 257 bytes" "$work/err" \
        'type: listing.bas:2: the line has 257 bytes; at most 256 can be typed, so part it in two\n'
    gives 0 "type --help" ./b2 type --help
}

# What editors make of a listing is typed as it was meant, and told once with its places.
type_tells_what_it_understood() {
    printf '\357\273\27710 PRINT \342\200\234CAF\303\251\342\200\235\n20 A=5\342\210\2223\n30 PRINT \342\200\234A\342\200\235\n40 B=2\n40 B=3\n\032' >listing.bas
    gives 0 "type: signs of editors" ./b2 type 1 listing.bas
    is_text "type: signs of editors" "$work/err" "type: listing.bas:1: the mark of UTF-8 is read as nothing
type: listing.bas:1: \342\200\234 is read as \", also in line 3
type: listing.bas:1: \303\251 is read as e
type: listing.bas:1: \342\200\235 is read as \", also in line 3
type: listing.bas:2: \342\210\222 is read as -
type: listing.bas:5: the number 40 stands in line 4 of the file already; this one takes its place\n"
    grep '^type' "$work/out" >"$work/typed"
    is_text "type: what is typed" "$work/typed" \
        'type 1 10 PRINT "CAFe"\ntype 1 20 A=5-3\ntype 1 30 PRINT "A"\ntype 1 40 B=2\ntype 1 40 B=3\n'
    printf '10 A=1\n10\n10 A=2\nCLEAR\n10 A=3\n' >listing.bas
    gives 0 "type: numbers that stand twice on purpose" ./b2 type 1 listing.bas
    is_empty "type: numbers that stand twice on purpose" "$work/err"
}

lint_tells() {
    local listing
    cat >lint.bas <<'LISTING'
10 FOR I=1 TO 3:PRINT "GOTO 999":NEXT I
20 REM GOTO 888:GOTO 777
30 IF A=1 THEN 500:GOSUB 600:REM GOSUB 700
40 ON B GOTO 10,20,45
50 PRINTUSING 60,A:PRINTUSING 70,B:PRINTUSING 65,C
60 %GOTO 20 ##:NEXT K
70 PRINT 1
80 NEXT J
80 PRIMT
90 KEYIN A$,10,95:$OPEN 97,/D11
RUN
100 RESTORE LINE 105:IF END THEN 106:ELSE 107
LISTING
    gives 22 "lint" ./b2 lint lint.bas
    sed 's/^lint.bas:\([0-9]*\): .*: /\1: /' "$work/out" >"$work/told"
    is_text "lint" "$work/told" '3: there is no line 500
3: there is no line 600
4: there is no line 45
5: line 70 is no image
5: there is no image 65
8: NEXT J, and no FOR has J
lint.bas:9: the number 80 stands in line 8 of the file already; this one takes its place
9: an equals sign is missing; also where a word is misspelled, which is then read as a variable'"'"'s name
10: there is no line 95
10: there is no line 97
11: the line has no number; try executes it at once
12: there is no line 105
12: there is no line 106
12: there is no line 107\n'
    for listing in examples/*.bas; do
        gives 0 "lint $listing" ./b2 lint "$listing"
        is_empty "lint $listing" "$work/out"
    done
    for ((line = 1; line <= 50; line++)); do echo "$line REM $(bytes 50)"; done >large.bas
    gives 22 "lint: too large" ./b2 lint --area 2 large.bas
    # A line takes its atoms and 5 bytes: REM, a blank or none, and 50 bytes of text, of 2,048.
    if grep -qE '^large.bas:3[5-8]: A01: the program has no room in its area of 2 KiB from here on$' "$work/out" && [ "$(wc -l <"$work/out")" = 1 ]; then
        ok
    else
        bad "lint: too large" "$(cat "$work/out")"
    fi
    gives 0 "lint: large enough" ./b2 lint large.bas
    for listing in '' 'nofile' 'large.bas large.bas' '--area 1 large.bas' '--area 25 large.bas' '--area'; do
        # shellcheck disable=SC2086
        gives 2 "lint $listing" ./b2 lint $listing
    done
}

list_gives_a_listing() {
    gives 0 "list: a log" ./b2 list examples/listing.log
    cp "$work/out" listed.bas
    is_text "list: a log" listed.bas '10 A,B=7:REM both\n20 PRINT A*B\n'
    gives 0 "list: what is listed is tried again" ./b2 try listed.bas
    is_text "list: what is listed is tried again" "$work/out" 'RUN\n 49 \n:'
    # What runs is halted, and what is half typed taken back.
    printf '%s\n' 'turn 1 2' 'type 1 10 INPUT "N",N:GOTO 10' 'turn 1 4' 'type 1 RUN' 'turn 1 9' 'keys 1 12' 'turn 1 1' >asks.log
    gives 0 "list: a log that ends in an answer" ./b2 list asks.log
    is_text "list: a log that ends in an answer" "$work/out" '10 INPUT "N",N:GOTO 10\n'
    printf '%s\n' 'turn 1 2' 'type 1 10 GOTO 10' 'turn 1 4' 'type 1 RUN' 'turn 1 9' >runs.log
    gives 0 "list: a log that ends in a loop" ./b2 list runs.log
    is_text "list: a log that ends in a loop" "$work/out" '10 GOTO 10\n'
    gives 0 "list: a terminal" ./b2 list --boot examples/two.toml examples/clerks.log 2
    grep '^type 2 [0-9]' examples/clerks.log | sed 's/^type 2 //' | head -n 1 >"$work/first"
    has "list: a terminal" "$work/out" "$(cut -d' ' -f1 "$work/first")"
    gives 0 "list: the log of the disk" ./b2 run examples/disk.toml examples/articles.log out
    cp out.D11 before.disk
    gives 0 "list: a program of a disk" ./b2 list out.D11 STOCK
    cp "$work/out" saved.bas
    gives 0 "list: the program that was saved" ./b2 list --boot examples/disk.toml examples/articles.log
    same "list: a program of a disk" saved.bas "$work/out"
    same "list: the disk stays" out.D11 before.disk
    gives 2 "list: no such program" ./b2 list out.D11 NONE
    has "list: no such program" "$work/err" 'out.D11: NONE: D82: the disk has no such file'
    gives 2 "list: a disk and no name" ./b2 list out.D11
    echo 'turn 1 2' >empty.log
    gives 0 "list: no program" ./b2 list empty.log
    is_text "list: no program" "$work/err" 'list: there is no line of a program\n'
    echo 'sing' >bad.log
    gives 5 "list: a bad log" ./b2 list bad.log
    has "list: a bad log" "$work/err" 'bad.log:1: the first word is unknown: sing'
    for listing in '' 'nofile' 'empty.log 2' 'empty.log x' '--boot' '--boot nofile empty.log' 'a b c'; do
        # shellcheck disable=SC2086
        gives 2 "list $listing" ./b2 list $listing
    done
}

# What the program says of a file stands there as it is promised, and what it means comes after it.
numbers_are_explained() {
    local boot place what
    sed 's/^quota = 20/colour = 3\n&/' examples/two.toml >bad.toml
    gives 4 "run: a key that is not known" ./b2 run bad.toml examples/clerks.log out
    is_text "run: a key that is not known" <(head -n 1 "$work/err") 'bad boot 2\n'
    place=$(grep -n colour bad.toml | cut -d: -f1)
    has "run: a key that is not known" "$work/err" "b2: bad.toml:$place: no key is called colour: a key is unknown, missing or of another kind"
    while read -r place what; do
        sed "$place" examples/two.toml >bad.toml
        gives 4 "run: a boot file, $place" ./b2 run bad.toml examples/clerks.log out
        if grep -qE "^b2: bad.toml:$what" "$work/err"; then ok; else bad "run: a boot file, $place" "$(cat "$work/err")"; fi
    done <<'BOOTS'
s/^quota.*/quota/ [0-9]+: the file isn't a TOML document
s/^quota.*// 1: quota is missing: a key is unknown
s/^data.*// [0-9]+: data is missing: a key is unknown
s/^quota.*/quota=1001/ [0-9]+: quota is of another kind or out of its range: a key
s/^text.*/text=25/ [0-9]+: text = 25: a size is out of its range
s/^number.*/number=1/ [0-9]+: number = 1: a terminal's number
s/^front.*/front=9/ [0-9]+: front = 9: the front of a terminal
BOOTS
    printf 'turn 1 1\nturn 1 1001\n' >bad.log
    gives 5 "run: a line of a log" ./b2 run examples/two.toml bad.log out
    is_text "run: a line of a log" "$work/err" 'bad log 2 4
b2: bad.log:2: a number is out of its range: a terminal from 1 to 12, a partition from 1 to 16, and the numbers above: turn 1 1001\n'
    head -c 4096 /dev/zero >out.D11
    gives 6 "run: an image" ./b2 run examples/kept.toml examples/kept.log next
    is_text "run: an image" "$work/err" "bad image D11 2\nb2: out.D11: the version isn't 1 or 2; or it is 1 and there are more than 32,512 sectors; or index count, total or the 00 of the head differ\n"
    gives 1 "test with a word" ./b2 test fun
}

# A checkout of three crates, and a toolchain that only leaves files where the real one does.
make_small_checkout() { # FOLDER
    local name
    mkdir -p "$1/crates" "$1/bin" "$1/docs"
    cp -r "$top/b2" "$top/tools" "$1"
    cp "$top/docs/CODES.md" "$top/docs/FORMATS.md" "$1/docs"
    printf '%s\n' 'b2_base:' 'b2_text: b2_base' 'b2_mvp: b2_text' >"$1/crates.txt"
    echo 'Handles allowed: none.' >"$1/HANDLES"
    for name in b2_base b2_text b2_mvp; do mkdir -p "$1/crates/$name/src"; echo "// $name" >"$1/crates/$name/src/lib.rt"; done
    cat >"$1/bin/rt" <<'RT'
#!/bin/sh
[ "$*" = ci ] || exit 2
here=$(dirname "$0")
for name in b2_base b2_text b2_mvp; do
    if cmp -s "crates/$name/src/lib.rt" "$here/$name"; then echo "rt: $name is kept: an earlier run proved the same files"; continue; fi
    [ ! -e "$here/is_broken" ] || { echo "rt: $name NOT PROVED"; exit 1; }
    echo "rt: $name proved"
    cp "crates/$name/src/lib.rt" "$here/$name"
done
mkdir -p crates/b2_mvp/out
printf '#!/bin/sh\necho turns 1 steps 1 dropped 0 apart 1\n' >crates/b2_mvp/out/b2_mvp
chmod +x crates/b2_mvp/out/b2_mvp
RT
    chmod +x "$1/bin/rt"
}

building_tells_each_crate() {
    make_small_checkout small
    export XDG_CACHE_HOME=$PWD/cache
    gives 0 "building" env PATH="$PWD/small/bin:$PATH" small/b2 run a b c
    is_text "building" "$work/out" 'turns 1 steps 1 dropped 0 apart 1\n'
    sed 's/some .* on four processors/.../' "$work/err" >told
    is_text "building" told 'b2: proving and building the program, 3 crates; from nothing it takes ..., and later what has changed
b2: crate 1 of 3: b2_base
b2: crate 2 of 3: b2_text
b2: crate 3 of 3: b2_mvp\n'
    gives 0 "building: what is built" env PATH="$PWD/small/bin:$PATH" small/b2 run a b c
    is_empty "building: what is built" "$work/err"
    sleep 1
    echo '// changed' >>small/crates/b2_mvp/src/lib.rt
    gives 0 "building: what changed" env PATH="$PWD/small/bin:$PATH" small/b2 run a b c
    has "building: how long it took here" "$work/err" "from nothing it takes 1 minutes on the $(nproc) processors here, and later what has changed"
    sleep 1
    echo '// changed' >>small/crates/b2_mvp/src/lib.rt
    : >small/bin/is_broken
    gives 127 "building: what isn't proved" env PATH="$PWD/small/bin:$PATH" TMPDIR="$work" small/b2 run a b c
    has "building: what isn't proved" "$work/err" 'b2_mvp NOT PROVED'
    has "building: what isn't proved" "$work/err" 'b2: the program could not be built'
    gives 127 "building: no toolchain" env PATH=/usr/bin:/bin small/b2 run a b c
    has "building: no toolchain" "$work/err" 'the command rt of the Rattle toolchain is not on the PATH'
    if [ -z "$(find "$work" -maxdepth 1 -name 'tmp.*')" ]; then ok; else bad "building: files" "a file is left"; fi
    unset XDG_CACHE_HOME
}

# What is packed runs in an empty folder, where there is no toolchain.
packing_takes_all_that_is_wanted() {
    local name
    mkdir packs
    gives 0 "pack" ./b2 pack packs
    name=$(basename "$(cat "$work/out")" .tar.gz)
    has "pack" "$work/out" "packs/b2_mvp-$(git -C "$top" log -1 --format=%cd-%h --date=format:%Y%m%d 2>/dev/null)"
    cp "packs/$name.tar.gz" first.tar.gz
    gives 0 "pack: once more" ./b2 pack packs
    same "pack: the same files give the same bytes" "packs/$name.tar.gz" first.tar.gz
    mkdir -p unpacked && tar xzf "packs/$name.tar.gz" -C unpacked
    mkdir -p bin
    for tool in sh bash env dirname readlink find head cat sha256sum; do ln -sf "$(command -v "$tool")" bin; done
    ln -sf "$(python3 -c 'import sys; print(sys.executable)')" bin/python3
    (cd "unpacked/$name" && PATH=$OLDPWD/bin sha256sum -c --quiet b2_mvp.sha256) && ok || bad "pack: the sum" "another"
    same "pack: the program" "unpacked/$name/b2_mvp" "$top/crates/b2_mvp/out/b2_mvp"
    gives 0 "pack: try" env PATH="$PWD/bin" bash -c "cd unpacked/$name && exec ./b2 try examples/stock.bas <examples/stock.in"
    same "pack: try" "$work/out" examples/stock.out
    has "pack: try" "$work/err" 'b2: nothing can be proved and built here, so the program'
    gives 0 "pack: run" env PATH="$PWD/bin" bash -c "cd unpacked/$name && exec ./b2 run examples/first.toml examples/first.log out"
    is_text "pack: run" "$work/out" 'turns 5 steps 4 dropped 0 apart 1\n'
    is_empty "pack: said once" "$work/err"
    gives 23 "pack: the pages are there" env PATH="$PWD/bin" bash -c "cd unpacked/$name && echo '10 PRINT 1/0' >a.bas && exec ./b2 try a.bas"
    has "pack: the pages are there" "$work/err" 'a number is divided by zero'
    while read -r link; do
        if [ -e "unpacked/$name/$link" ]; then ok; else bad "pack: README's links" "there is no $link"; fi
    done < <(sed -n 's/](\([^)#]*\)/\n&\n/gp' "$top/README.md" | sed -n 's/^](//p' | sort -u)
    for tool in lint list vary type live pack; do
        gives 0 "pack: $tool" env PATH="$PWD/bin" bash -c "cd unpacked/$name && exec ./b2 $tool --help"
    done
    # The commands of the page, with the names that it leaves open.
    awk '/^```sh/ { block = 1; next } /^```/ { block = 0 } block' "$top/docs/PACKED.md" |
        sed "s/VERSION/${name#b2_mvp-}/; s#/where/it/was/unpacked#$PWD/packs/$name#; s#crates/b2_mvp#$top/&#" >page.sh
    gives 0 "pack: the commands of PACKED.md" bash -ec 'cd packs && . ../page.sh'
    same "pack: the commands of PACKED.md" "$work/out" examples/mortgage.out
    rm bin/python3
    gives 0 "pack: run without python3" env PATH="$PWD/bin" bash -c "cd unpacked/$name && exec ./b2 run examples/first.toml examples/first.log out"
    gives 2 "pack: test" "unpacked/$name/b2" test
    has "pack: test" "$work/err" 'what proves and tests is not packed'
    gives 2 "pack: no folder" ./b2 pack nofolder
    gives 2 "pack: words" ./b2 pack a b
}

type_spells_a_log
building_tells_each_crate
packing_takes_all_that_is_wanted
lint_tells
list_gives_a_listing
numbers_are_explained
type_refuses
type_tells_what_it_understood
