exec "$vmemd" script 2>&-
