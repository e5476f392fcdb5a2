-- Ends with an error, and status 1.
local function inner(table) return table.field.field end
print("before")
inner({})
