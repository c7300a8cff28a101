ring 4 2 16
put 0 711
go 0
go 0
go 0
go 0
back cell 0
go 0
take 1
go 1
go 1
go 1
back cell 0
cut
