exec "$vmemd" script <&-
