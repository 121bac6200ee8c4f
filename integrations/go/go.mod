module wittalen/dia

go 1.19
