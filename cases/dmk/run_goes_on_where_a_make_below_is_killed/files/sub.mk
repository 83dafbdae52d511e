all: p q
p q:
	: >$@; for _ in 1 2 3 4 5 6 7 8 9 10 11 12 13 14 15 16 17 18 19 20; do set -- [pq]; [ $$# -lt 2 ] || break; sleep 0.1; done; [ $@ = q ] || kill -9 $$PPID
