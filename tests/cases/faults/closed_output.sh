exec "$vmemd" script >&-
