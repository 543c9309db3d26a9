module example.org/coniks

go 1.19
