module dagcbor

go 1.19
