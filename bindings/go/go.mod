module gimowheta.example/inroot

go 1.19
