# The examples, and what the pages for users say: each command is run, and each output compared.

# A listing, its answers and what is shown.
examples_run() {
    local listing name count=0
    for listing in "$top"/examples/*.bas; do
        name=$(basename "$listing" .bas)
        ./b2 try "examples/$name.bas" <"examples/$name.in" >"$work/out" 2>"$work/err"
        is_empty "$name.bas: no line is refused" "$work/err"
        same "$name.bas: shows examples/$name.out" "$work/out" "examples/$name.out"
        count=$((count + 1))
    done
    if [ "$count" -ge 8 ]; then ok; else bad "examples" "only $count listings"; fi
}

# The boot file and the log of the run that leaves the disk with which a boot file of the examples begins.
day_before() { # BOOT
    case $1 in
        kept.toml) echo disk.toml disk.log ;;
        totals.toml) echo orders.toml orders.log ;;
        start.toml) echo disk.toml articles.log ;;
        nextday.toml) echo depot.toml depot.log ;;
        wide.toml) echo move.toml move.log ;;
    esac
}

# What comes out otherwise under other orders of an example's log is what the page says, and nothing else.
examples_under_other_orders() {
    local boot log before_boot before_log
    sed -n 's/^| `\([a-z]*\.toml\) \([a-z]*\.log\)` .*/\1 \2/p' "$top/examples/README.md" | sort -u >"$work/logs"
    while read -r boot log; do
        read -r before_boot before_log < <(day_before "$boot")
        [ -z "$before_boot" ] || ./b2 run "examples/$before_boot" "examples/$before_log" out >"$work/out"
        awk -v row="| \`$boot $log\` | " '
            /^## / { inside = $0 == "## Under other orders" }
            inside && index($0, row) == 1 { $0 = substr($0, length(row) + 1); sub(/ \|.*/, ""); gsub(/, /, "\n"); print }
            ' "$top/examples/README.md" >"$work/wanted"
        ./b2 vary "examples/$boot" "examples/$log" 10 >"$work/told" 2>"$work/err"
        # Of one partition alone nothing can come in another order.
        if [ "$(grep -c '^\[\[partition\]\]' "examples/$boot")" = 1 ]; then
            has "$boot $log under other orders" "$work/err" 'nothing of the log can come in another order'
        else
            is_empty "$boot $log under other orders" "$work/err"
        fi
        sed -n 's/^\(.*\): otherwise in [1-9].*/\1/p' "$work/told" >"$work/otherwise"
        same "$boot $log under other orders" "$work/otherwise" "$work/wanted"
    done <"$work/logs"
    ls "$top/examples" | sed -n '/\.log$/p' >"$work/wanted"
    cut -d' ' -f2 "$work/logs" | sort >"$work/listed"
    same "examples/README.md lists each log once" "$work/listed" "$work/wanted"
}

# Whether a command is one for the tests of sessions, or these tests themselves.
is_tried_elsewhere() { # COMMAND
    [[ $1 == './b2 live'* || $1 == *live.log* || $1 == './b2 test' || $1 == './b2 prove' ]]
}

# Runs one command of a page. What it says may come before or after what it puts.
try_command() { # PAGE COMMAND WANTED
    local out err
    (exit "$last")
    eval "$2" >"$work/out" 2>"$work/err" </dev/null
    last=$?
    # The dot keeps empty lines at the end.
    out=$(awk '{ sub(/ *$/, ""); print } END { print "." }' "$work/out")
    err=$(awk '{ sub(/ *$/, ""); print } END { print "." }' "$work/err")
    out=${out%.} err=${err%.}
    if [ "$out$err" = "$3" ] || [ "$err$out" = "$3" ]; then
        ok
    else
        bad "$1: $2" "$(diff <(printf '%s' "$3") <(printf '%s' "$err$out") | head -n 6)"
    fi
}

# The blocks of a page that show commands after `$ `, their further lines after `> `, and what they put.
consoles_run() { # PAGE
    local line inside= command= wanted= last=0 count=0
    while IFS= read -r line; do
        if [ -z "$inside" ]; then
            [ "$line" != '```console' ] || inside=1
            continue
        fi
        case $line in
            '$ '* | '```')
                [ -z "$command" ] || try_command "$1" "$command" "$wanted"
                command= wanted=
                if [ "$line" = '```' ]; then inside=; else command=${line#'$ '} count=$((count + 1)); fi
                ;;
            '> '*) command+=$'\n'${line#'> '} ;;
            *) wanted+=$(printf '%s' "$line" | sed 's/ *$//')$'\n' ;;
        esac
    done <"$top/$1"
    if [ "$count" -gt 0 ]; then ok; else bad "$1" "no commands"; fi
}

# Commands in the running text and in blocks for the shell, in the order of the page: each ends with the status 0.
commands_in_text_run() { # PAGE
    local command
    while IFS= read -r command; do
        is_tried_elsewhere "$command" || gives 0 "$1: $command" bash -c "$command"
    done < <(awk '
        /^```/ { block = block ? "" : $0; next }
        block == "```sh" { sub(/ *#.*/, ""); if (length) print }
        block == "" && !/^\|/ {
            parts = split($0, part, "`")
            for (i = 2; i <= parts; i += 2) if (part[i] ~ /^\.\/b2 / && part[i] !~ /[A-Z][A-Z]/) print part[i]
        }' "$top/$1")
}

# Each line of the table is typed on a machine that CLEAR has emptied, and shows its code.
codes_are_shown() {
    local code lines
    sed -n 's/^pub const \([A-Z][0-9][0-9]\)_.*/\1/p' "$top/crates/b2_base/src/codes.rt" >"$work/codes"
    sed -n 's/^| `\([A-Z][0-9][0-9]\)` .*/\1/p' "$top/docs/CODES.md" >"$work/listed"
    same "CODES.md lists each code of b2_base once, in order" "$work/listed" "$work/codes"
    awk -F '|' '/^\| `[A-Z][0-9][0-9]`/ {
        code = substr($2, 3, 3)
        lines = split($5, part, "`")
        for (i = 2; i <= lines; i += 2) { if (i == 2) print "CLEAR"; print part[i] }
        if (lines > 1) print code > (ENVIRON["work"] "/wanted")
    }' "$top/docs/CODES.md" >codes.bas
    ./b2 type 1 codes.bas >codes.log && ./b2 run examples/first.toml codes.log codes >"$work/out" 2>"$work/err"
    has "CODES.md: no key is lost" "$work/out" "dropped 0"
    # One code is shown after each CLEAR, in the order of the page.
    sed -n 's/^ERR \([A-Z][0-9][0-9]\).*/\1/p' codes.t01 >"$work/got"
    same "CODES.md: what is typed shows its code" "$work/got" "$work/wanted"
}

export work
examples_run
consoles_run docs/USING.md
consoles_run README.md
consoles_run examples/README.md
consoles_run docs/PORTING.md
for page in README.md CONTRIBUTING.md docs/USING.md docs/CODES.md docs/PORTING.md examples/README.md; do commands_in_text_run "$page"; done
codes_are_shown
gives 0 "LANGUAGE.md: its examples" "$top/tools/tests/language.py" "$top/crates/b2_mvp/out/b2_mvp" "$work/pages"
is_empty "LANGUAGE.md: its examples" "$work/out"
counted "LIMITS.md: its tables" limits.py "$top/crates/b2_mvp/out/b2_mvp"
gives 0 "PORTING.md has the table of tools/habits.py" "$top/tools/habits.py" --check
gives 0 "PORTING.md: its tables" "$top/tools/tests/porting.py" "$top/crates/b2_mvp/out/b2_mvp" "$work"
is_empty "PORTING.md: its tables" "$work/out"
examples_under_other_orders
counted "names in pages" pages.py
counted "forms that sessions execute" forms.py
gives 0 "ARCHITECTURE.md has the picture of crates.txt" "$top/tools/picture" --check
gives 0 "LAWS.md is made of the laws of the crates" "$top/tools/laws" --check
