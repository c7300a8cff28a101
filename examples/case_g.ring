ring 4 3 2
put 0 101
go 0
go 0
go 0
go 0
back cell 0
go 0
put 0 102
go 0
go 0
go 0
go 0
back cell 1
go 0
put 0 103
go 0
go 0
go 0
go 0
back cell 2
go 0
put 0 104
go 0
go 0
go 0
go 0
back cell 3
go 0
take 1
go 1
take 2
go 2
go 2
go 2
put 0 105
go 0
go 0
go 0
go 0
go 0
go 0
go 0
back cell 1
go 0
cut
