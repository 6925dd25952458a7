lasso 1
stem 0 1 2
loop 3 5 6
end
