all: $(IN)1 $(IN)2 $(IN)3
$(IN)1 $(IN)2 $(IN)3:
	$(MAKE) -s -j 8 -f lowest.mk IN=$@
