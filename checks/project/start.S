start:  ret
