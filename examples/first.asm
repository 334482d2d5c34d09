start
	ldi r1,k
	neg r1
	hcf
k 5
