module example.org/antientropy/go

go 1.19
