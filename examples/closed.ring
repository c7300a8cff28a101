ring 1 1 16
put 0 711
go 0
go 0
go 0
go 0
back cell 0
go 0
put 0 712
go 0
go 0
go 0
go 0
go 0
back tail
go 0
cut
