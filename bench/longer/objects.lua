-- Objects: 120,000 tables with a metatable, and a method of each second one.
local Point = {}
Point.__index = Point
function Point.new(x, y) return setmetatable({x = x, y = y}, Point) end
function Point:add(other) return Point.new(self.x + other.x, self.y + other.y) end
local sum = Point.new(0, 0)
for i = 1, 60000 do sum = sum:add(Point.new(i % 7, i % 5)) end
print(sum.x, sum.y)
