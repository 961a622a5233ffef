# The shipped program: taken in a clone in which nothing was built, and on a system without the toolchain; and not taken where it is
# damaged or of other sources. All of that in a copy of the checkout, and with a folder for caches of its own.

# A copy of the checkout as a clone has it, and a folder of commands without rt.
clone=$work/clone
bare=$work/bare
mkdir "$clone" "$bare"
(cd "$top" && tar --exclude=out --exclude=.git -cf - .) | tar -C "$clone" -xf -
for command in awk basename cat chmod cut cmp cp date dirname env find getconf grep head ls mkdir mktemp mv paste printf python3 \
    readlink rm sed seq sh bash sha256sum sleep sort stat stty tail tar touch tr uname wc xargs xz; do
    found=$(command -v "$command") && case $found in /*) ln -s "$found" "$bare/$command" ;; esac
done
export_cache() {
    export XDG_CACHE_HOME=$work/cache
    rm -rf "$XDG_CACHE_HOME"
}

# Runs a command of b2 in the clone, where there is no rt.
bare_b2() { # WORD..
    (cd "$clone" && PATH=$bare ./b2 "$@")
}

kept_cache=${XDG_CACHE_HOME-}
export_cache
answered 0 "a clone without rt: try" "$(cat "$top/examples/mortgage.in")\n" bare_b2 try examples/mortgage.bas
same "a clone without rt: try shows what it shows" "$work/out" "$top/examples/mortgage.out"
has "a clone: the shipped program is told once" "$work/err" "the program of this checkout, proved by its gate and not here"
gives 0 "a clone without rt: run" bare_b2 run examples/first.toml examples/first.log out
is_empty "a clone: and not a second time" "$work/err"
gives 20 "a clone without rt: vary, where orders differ" bare_b2 vary examples/orders.toml examples/lost.log 3
gives 127 "a clone without rt: prove" bare_b2 prove
has "prove says what is missing" "$work/err" "the command rt of the Rattle toolchain is not on the PATH"

# A damaged program is never run.
export_cache
printf 'X' | dd of="$clone/release/b2_mvp.xz" bs=1 seek=4000 conv=notrunc 2>"$work/dd"
gives 127 "a damaged release isn't run" bare_b2 run examples/first.toml examples/first.log out
has "a damaged release is told" "$work/err" "release/b2_mvp.xz is damaged"
cp "$top/release/b2_mvp.xz" "$clone/release/b2_mvp.xz"

# Nor is one that was unpacked and changed since: it is unpacked again.
gives 0 "the release is taken again" bare_b2 run examples/first.toml examples/first.log out
printf 'X' >>"$(ls "$XDG_CACHE_HOME"/b2_mvp/released/*/b2_mvp)"
gives 0 "an unpacked program that was changed is unpacked anew" bare_b2 run examples/first.toml examples/first.log out

# Where nothing can be unpacked, by want of xz or of rights.
export_cache
rm "$bare/xz"
gives 127 "without xz" bare_b2 run examples/first.toml examples/first.log out
has "without xz it is told" "$work/err" "packed by xz, which isn't here"
ln -s "$(command -v xz)" "$bare/xz"
: >"$work/no_folder"
XDG_CACHE_HOME=$work/no_folder
gives 127 "without a folder for caches" bare_b2 run examples/first.toml examples/first.log out
has "without a folder for caches it is told" "$work/err" "can't be unpacked to"

# Another system.
export_cache
sed -i 's/^library .*/library 9.99/' "$clone/release/RELEASE"
gives 127 "an older C library" bare_b2 run examples/first.toml examples/first.log out
has "an older C library is told" "$work/err" "wants the C library 9.99"
sed -i 's/^system .*/system Linux riscv64/' "$clone/release/RELEASE"
gives 127 "another system" bare_b2 run examples/first.toml examples/first.log out
has "another system is told" "$work/err" "is for Linux riscv64"
cp "$top/release/RELEASE" "$clone/release/RELEASE"

# A comment that changed in a source: these are other sources, and the shipped program isn't theirs.
printf '// a remark\n' >>"$clone/crates/b2_base/src/lib.rt"
gives 127 "other sources" bare_b2 run examples/first.toml examples/first.log out
has "other sources are proved, and rt is wanted" "$work/err" "there is no program that was built of these sources"
if [ -n "$kept_cache" ]; then export XDG_CACHE_HOME=$kept_cache; else unset XDG_CACHE_HOME; fi

# The same program and sources give the same release.
mkdir "$work/kept_release"
cp "$top"/release/* "$work/kept_release"
mkdir -p "$clone/crates/b2_mvp/out"
cp "$top/crates/b2_mvp/out/b2_mvp" "$clone/crates/b2_mvp/out"
cp "$top/crates/b2_base/src/lib.rt" "$clone/crates/b2_base/src/lib.rt"
gives 0 "a release is made" "$clone/tools/release"
same "the same program gives the same bytes" "$clone/release/b2_mvp.xz" "$work/kept_release/b2_mvp.xz"
same "and the same manifest" "$clone/release/RELEASE" "$work/kept_release/RELEASE"
gives 0 "the release is that of the gate" "$top/tools/release" check
printf 'X' >>"$clone/crates/b2_mvp/out/b2_mvp"
gives 1 "a program of other bytes isn't" "$clone/tools/release" check
