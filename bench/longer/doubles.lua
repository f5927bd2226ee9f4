-- Doubles: sums, products and quotients.
local sum = 0.0
for i = 1, 200000 do sum = sum + 1.0 / (i * 1.5) - 0.25 * i / 3.0 end
print(string.format("%.6f", sum))
