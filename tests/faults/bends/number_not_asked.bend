# A request is taken whatever number -n gives.
part: retries
file: host/site.c
old:     if (b.told != CANT_BE_TOLD && asked->number != 0 && asked->number != book_count(&b) + 1)
new:     if (b.told != CANT_BE_TOLD && asked->number > UINT64_MAX - 1)
