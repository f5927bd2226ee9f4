-- Sorts: table.sort of 6,000 numbers.
local t, seed = {}, 12345
for i = 1, 6000 do seed = (seed * 1103515245 + 12345) % 2147483648; t[i] = seed end
table.sort(t)
print(t[1], t[3000], t[6000])
