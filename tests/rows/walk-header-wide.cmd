walk --lines 0 --schedule --flavour qsbr --format 2
