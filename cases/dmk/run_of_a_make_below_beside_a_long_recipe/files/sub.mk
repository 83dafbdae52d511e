all: a b
a b:
	sleep 0.3; : >$@
