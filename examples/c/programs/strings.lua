-- Strings: formats, patterns, substitution, packing.
local parts = {}
for i = 1, 300 do
    parts[#parts + 1] = string.format("%05d:%x:%-6s|%5.2f|%q", i, i * 31, "s" .. i, i / 7, "line\n" .. i)
end
local text = table.concat(parts, ";")
print(#text, text:sub(1, 60))
local count, sum = 0, 0
for digits in text:gmatch("%d+") do
    count, sum = count + 1, sum + tonumber(digits)
end
print(count, sum)
local changed, times = text:gsub("(%w+)|", function(word) return word:upper():reverse() .. "/" end)
print(times, changed:find("/", 1, true), changed:byte(10, 14))
print(("x"):rep(5, ","), ("%s"):format(true), ("a,b,,c"):find(",,", 1, true), utf8.char(72, 228, 8364), utf8.len("Hä€"))
local packed = string.pack("<i4 >I2 z s1 d", -2, 258, "zero", "counted", 0.5)
print(#packed, string.unpack("<i4 >I2 z s1 d", packed))
