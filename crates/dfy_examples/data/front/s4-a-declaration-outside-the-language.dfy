const c := 1
