-- Objects: classes by metatables, closures, coroutines, errors, goto, and what is loaded from text.
local Account = {}
Account.__index = Account
Account.__add = function(a, b) return Account.new(a.balance + b.balance) end
Account.__tostring = function(self) return "account of " .. self.balance end
Account.__close = function(self) print("closed", self) end
function Account.new(balance) return setmetatable({balance = balance}, Account) end
function Account:withdraw(amount)
    if amount > self.balance then error({missing = amount - self.balance}) end
    self.balance = self.balance - amount
    return self
end

local total = Account.new(0)
for i = 1, 1500 do total = total + Account.new(i):withdraw(i // 2) end
local failed = 0
for i = 1, 600 do
    local is_done, why = pcall(Account.withdraw, Account.new(i), 300)
    if not is_done then failed = failed + why.missing end
end
print(total, failed)
do
    local first <close> = Account.new(1)
    local second <close> = Account.new(2)
end

local function counter()
    local count <const>, at = 10, 0
    return function(step) at = (at + step) % count return at end
end
local one, other = counter(), counter()
print(one(3), one(9), other(4), select("#", one(1), nil, nil))

local function permutations(items, n)
    if n == 0 then coroutine.yield(table.concat(items)) end
    for i = 1, n do
        items[n], items[i] = items[i], items[n]
        permutations(items, n - 1)
        items[n], items[i] = items[i], items[n]
    end
end
local found = {}
for text in coroutine.wrap(function() permutations({"a", "b", "c", "d"}, 4) end) do found[#found + 1] = text end
print(#found, found[1], found[24], coroutine.isyieldable())

for i = 1, 3 do
    for j = 1, 3 do
        if i * j == 4 then goto found end
        if j > i then goto next end
        io.write(i, "*", j, " ")
    end
    ::next::
end
::found::
print()
print(load("return 6 * 7")(), load("return +"), pcall(error, "text", 0))
print(pcall(function() local nothing; return nothing.field end))
print(select(2, xpcall(function() error("deep") end, function(why) return why:upper() .. " " .. #debug.traceback("t") // 1000 end)))
print(string.dump(counter):sub(2, 4), #arg, io.open("no such file"))
