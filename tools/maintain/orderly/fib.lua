local function fib(n) if n < 2 then return n end return fib(n - 1) + fib(n - 2) end
local words = {}
for i = 1, 300 do words[#words + 1] = string.format("%04d", (i * 7919) % 1000) end
table.sort(words)
local ok, err = pcall(function() error("thrown") end)
local co = coroutine.wrap(function() for i = 1, 50 do coroutine.yield(i) end end)
local sum = 0
for i = 1, 50 do sum = sum + co() end
for w in string.gmatch("the quick brown fox", "%a+") do sum = sum + #w end
print(fib(15), words[1], ok, sum, select("#", table.unpack(words)))
