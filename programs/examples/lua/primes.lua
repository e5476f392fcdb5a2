-- The primes up to a number, by a sieve: lua primes.lua 1000
local most = tonumber(arg[1]) or 100
local crossed = {}
for number = 2, most do
  if not crossed[number] then
    print(number)
    for multiple = number * number, most, number do
      crossed[multiple] = true
    end
  end
end
