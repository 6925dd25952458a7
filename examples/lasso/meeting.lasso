lasso 1
stem 0
loop 1 3 4
end
