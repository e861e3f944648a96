module pidtab

go 1.19
