module sqrescue.example/sqrescue

go 1.19
