-- The counting loop in Lua: count.lua ROUNDS counts so many times to 150,000.
local rounds = tonumber(arg[1])
for _ = 1, rounds do
    local i = 0
    while i < 150000 do
        i = i + 1
    end
end
