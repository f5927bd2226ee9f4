-- Floating point: sums, mathematical functions, conversions, and integers of 64 bits.
local sum, product = 0.0, 1.0
for i = 1, 1500 do
    sum = sum + math.sin(i) * math.sqrt(i)
    product = product * (1 + 1 / (i * i))
end
print(string.format("%.10f %.10f", sum, product), math.pi, 1e308 * 10, -0.0, 2^53, 10 // 3, -7 % 3, 7.5 // 2)
print(math.maxinteger, math.mininteger, math.maxinteger + 1 == math.mininteger, 7 // 0.0, 3 | 8, ~5, 1 << 62, "10" + 5)
print(math.tointeger(3.0), math.type(1), math.type(1.0), tostring(1e15), 123456789012345678, 0x7fp3, 1e100)
print(math.exp(1), math.log(10), math.floor(-3.7), math.fmod(-7, 3), 5 // 0.3, tonumber("0x1p-3"), tonumber("z", 36))
