# A file is written over itself: a cut leaves half of it.
part: cuts
file: host/store.c
old:     snprintf(fresh, sizeof fresh, "%s.new", name);
new:     snprintf(fresh, sizeof fresh, "%s", name);
