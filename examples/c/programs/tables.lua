-- Tables: sorting with and without a comparison, a sieve, and words counted by a table of theirs.
local numbers, state = {}, 1
for i = 1, 1500 do
    state = (state * 1103515245 + 12345) % 2147483648
    numbers[i] = state
end
local copy = table.move(numbers, 1, #numbers, 1, {})
table.sort(numbers)
table.sort(copy, function(a, b) return a > b end)
print(numbers[1], numbers[750], copy[1], copy[750])

local is_composite, primes = {}, {}
for i = 2, 4000 do
    if not is_composite[i] then
        primes[#primes + 1] = i
        for j = i * i, 4000, i do is_composite[j] = true end
    end
end
print(#primes, table.concat(primes, " ", #primes - 5))

local counts, names = {}, {}
for i = 1, 3000 do
    local name = "word" .. i * i % 97
    counts[name] = (counts[name] or 0) + 1
end
for name in pairs(counts) do names[#names + 1] = name end
table.sort(names)
print(#names, names[1], counts[names[1]], next({}))
