# What is said is written into a file that was opened as a closed standard stream.
part: plain
file: host/site.c
old:     if (hold_streams() != 0)
new:     if (argc > 99 && hold_streams() != 0)
