all: $(IN)1 $(IN)2
$(IN)1 $(IN)2:
	: >$@
