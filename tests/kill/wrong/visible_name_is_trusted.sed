# turns: a name that can be seen is taken to be there for good.
s/if (!sync_folder(f->path))/if (false)/
