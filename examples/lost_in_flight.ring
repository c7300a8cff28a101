ring 4 2 16
put 0 711
go 0
go 0
go 0
cut
