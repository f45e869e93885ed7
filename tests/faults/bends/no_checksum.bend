# A note with a bent byte is taken for what it says.
part: damages
file: host/note.c
old:     if (sum != checksum(bytes, CHECKED) || length != NOTE_SIZE - 2 || version != NOTE_VERSION ||
new:     if ((sum & 0) != 0 || length != NOTE_SIZE - 2 || version != NOTE_VERSION ||
