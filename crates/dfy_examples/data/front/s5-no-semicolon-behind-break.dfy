method M() { while true { break } }
