# Two programs at the same time move the same page.
part: plain
file: host/store.c
old:     if (directory < 0 || wait_for_turn(turn) != 0)
new:     if (directory < 0 || (turn > TO_WRITE && wait_for_turn(turn) != 0))
