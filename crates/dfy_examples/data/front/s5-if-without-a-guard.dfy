method M() { if { } }
