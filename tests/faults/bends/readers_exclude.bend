# Readers wait for each other.
part: plain
file: host/store.c
old:     int kind = turn == TO_READ ? LOCK_SH : LOCK_EX;
new:     int kind = turn == TO_READ ? LOCK_EX : LOCK_EX;
