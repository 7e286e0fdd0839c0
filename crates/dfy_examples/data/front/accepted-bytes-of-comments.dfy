// é
method M() { } /* é */
