.KEEP_STATE:
all: a b c
a:
	exit 3
b c:
	: >$@
