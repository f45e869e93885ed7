# A note that is cut short is taken for a sign that no request was given.
part: damages
file: host/note.c
old:     if (len != NOTE_SIZE)
new:     if (0 < len && len < NOTE_SIZE) { return 0; } if (len != NOTE_SIZE)
