module fishreef/rtr

go 1.19
