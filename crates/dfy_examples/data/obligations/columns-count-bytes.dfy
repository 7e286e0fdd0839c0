method M(a: int) {
	/* é */ assert a > 0; /* ü */ assert a / a == 1; // ß
	assert
	  /* /* */ */
	  a == a;
}
