# The sessions and the runs of tests/, each given to the built program, and programs that are edited ten thousand times.

# The program is built where it isn't current.
gives 0 "sessions: the program is there" ./b2 run examples/first.toml examples/first.log out
counted sessions sessions.py "$top/crates/b2_mvp/out/b2_mvp"
counted edits edits.py "$top/crates/b2_mvp/out/b2_mvp"
counted drills drills.py "$top/crates/b2_mvp/out/b2_mvp"
