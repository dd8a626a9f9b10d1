exec "$vmemd" frob 2>&-
