lasso 1
stem 0 1
loop 2 4
end
