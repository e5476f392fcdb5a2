-- Many small objects, closures, coroutines and numbers with a fraction.
local queue = {}
for number = 1, 20000 do
  queue[number % 500 + 1] = { number, tostring(number), function() return number end }
end
local sum = 0
for _, entry in ipairs(queue) do
  sum = sum + entry[3]()
end
print(sum, #queue)
local fibonacci = coroutine.wrap(function()
  local a, b = 0, 1
  while true do
    coroutine.yield(a)
    a, b = b, a + b
  end
end)
for _ = 1, 20 do
  io.write(fibonacci(), " ")
end
print()
print(math.pi, math.sqrt(2), 10 / 3, 2 ^ 100, 7 // 2, -7 % 3)
print(pcall(error, "an error that is caught"))
print(("%q %5.2f %x"):format("quoted\n", math.exp(1), 255))
