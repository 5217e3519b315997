-- A driver over Lua's own tables and its own incremental collector. Grade: space (docs/ADAPTER.md).
--
-- An object is a table, and a weak table has all of them: what the collector has taken out of it isn't charged any more
-- after the next reclaim. A flip waits for the end of Lua's cycle, so that the next one begins after it; `scavenge N` is N
-- of Lua's steps, and the collection is finished when that cycle has ended. Lua's collector also runs by itself.

local STRESS, LATER = 20, 200           -- commands between two cycles of Lua's own: in the first 400, and after them
collectgarbage("incremental", 200, 400, 10)

local areas, area_of = {}, {}           -- {name, kind, quota, charged, husks, line}, and each by its name
local space, header = {}, {}
local registers = {}
local held = setmetatable({}, {__mode = "k"})
local statics = {}                      -- objects of static areas: they are never condemned
local run                               -- the collection that runs
local newborn = {}                      -- objects made since the flip: they aren't condemned
local cycles = 0

local function watch()
  setmetatable({}, {__gc = function() cycles = cycles + 1; watch() end})
end
watch()

---- Objects: a cons has the parts 1 and 2, a block a code, and the fields 1 to n

local function hold(object)
  held[object] = true
  if object.area.kind == "static" then statics[#statics + 1] = object end
  if run then newborn[#newborn + 1] = object end
  return object
end

local function new_cons(area, charge, car, cdr)
  return hold{area = area, charge = charge, n = 2, car, cdr}
end

local function new_list(area, cars, count)
  local list
  for i = count, 1, -1 do list = new_cons(area, 3, cars[i], list) end
  return list
end

local function new_block(area, code, n)
  return hold{area = area, charge = n + 1, n = n, code = code}
end

local function is_object(value) return type(value) == "table" end
local function is_cons(value) return is_object(value) and not value.code end
local function is_block(value) return is_object(value) and value.code end

local function shown(value)
  if value == nil then return "nil" end
  if not is_object(value) then return tostring(value) end
  return value.code and "block " .. value.code .. " " .. value.n or "cons"
end

---- Work and charges

-- Does this number of steps, and all that remain if what is owed is paid.
local function pay(units)
  if not run or run.over then return end
  run.paid = run.paid + units
  local size = units > 1000 and 1000 or 0       -- of a step, in kilobytes; 0 is the least
  while not run.over and (units > 0 or run.paid >= run.owed) do
    units = units - 1
    run.over = collectgarbage("step", size)
  end
end

local function owe(words)
  if run then run.owed = run.owed + words end
end

-- Charges an allocation; answers why it is refused, if it is.
local function charge(area, words)
  if area.charged + words > area.quota then
    return string.format("exhausted %s %d %d %d", area.name, area.charged, words, area.quota)
  end
  area.charged = area.charged + words
  owe(words)
  pay(space.rate * words)
end

local function flip()
  if run then return "busy" end
  while not collectgarbage("step", 1000) do end
  local pages = 16 * space.regions      -- more than there is to scan: so Lua's cycle may take its time
  run = {owed = space.registers + 256 * pages, paid = 0, over = false}
  for _, area in ipairs(areas) do
    if area.kind ~= "static" then
      owe(area.charged - area.husks)
      area.husks = 0
    end
  end
  return "flipped " .. pages
end

local function scavenge(units)
  if not run then return "not-flipped" end
  pay(units)
  return run.over and "done" or "more"
end

local function reclaim()
  if not run then return "not-flipped" end
  if not run.over then return "not-done" end
  for _, area in ipairs(areas) do area.charged = area.husks end
  for object in pairs(held) do object.area.charged = object.area.charged + object.charge end
  run, newborn = nil, {}
  return "reclaimed"
end

---- Dumps

local function numbered()
  local numbers, order = {}, {}
  local function visit(value)
    while is_object(value) and not numbers[value] do
      order[#order + 1] = value
      numbers[value] = #order - 1
      value = is_cons(value) and is_cons(value[2]) and value[2] or nil
    end
  end
  for r = 0, space.registers - 1 do visit(registers[r]) end
  local at = 1
  while at <= #order do
    for i = 1, order[at].n do visit(order[at][i]) end
    at = at + 1
  end
  return numbers, order
end

-- For the first place of each list of cells how many it has.
local function runs_of(order)
  local function is_cell(object) return is_cons(object) and object.charge == 3 end
  local sizes = {}
  for tail, object in ipairs(order) do
    if is_cell(object) and object[2] == nil then
      local first = tail
      while first > 1 and tail - first < 1023 and is_cell(order[first - 1]) and order[first - 1].area == object.area
          and order[first - 1][2] == order[first] do
        first = first - 1
      end
      sizes[first] = tail - first + 1
    end
  end
  return sizes
end

local function dump()
  local numbers, order = numbered()
  local sizes, lines, at = runs_of(order), {table.unpack(header)}, 1
  local function named(value) return is_object(value) and "#" .. numbers[value] or shown(value) end
  while at <= #order do
    local object, words = order[at], {}
    local size = sizes[at]
    for i = 1, size or object.n do words[i] = named(size and order[at + i - 1][1] or not size and object[i] or nil) end
    local head = size and "run " .. object.area.name or object.code and "block " .. object.area.name .. " " .. object.code
      or "cons " .. object.area.name
    lines[#lines + 1] = table.concat({head, table.unpack(words)}, " ")
    at = at + (size or 1)
  end
  for r = 0, space.registers - 1 do
    if registers[r] ~= nil then lines[#lines + 1] = "root " .. r .. " " .. named(registers[r]) end
  end
  lines[#lines + 1] = "end-world"
  return table.concat(lines, "\n")
end

---- Commands: each is handed its words, and answers its reply

local function number(word) return math.tointeger(tonumber(word)) end
local function value_of(word) if word ~= "nil" then return number(word) end end
local function held_by(word) return registers[number(word)] end

local function fetch(to, value)
  registers[number(to)] = value
  return shown(value)
end

local function part(index)
  return function(to, from)
    local cons = held_by(from)
    return is_cons(cons) and fetch(to, cons[index]) or "wrong-type"
  end
end

local function field(index, block, action)
  if not is_block(block) then return "wrong-type" end
  return number(index) < block.n and action(number(index) + 1) or "no-field " .. block.n
end

local commands = {flip = flip, reclaim = reclaim, dump = dump, car = part(1), cdr = part(2)}

function commands.set(to, word) registers[number(to)] = value_of(word) return "ok" end
function commands.move(to, from) registers[number(to)] = held_by(from) return "ok" end

function commands.cons(to, name, car, cdr)
  local refused = charge(area_of[name], 2)
  if refused then return refused end
  registers[number(to)] = new_cons(area_of[name], 2, held_by(car), held_by(cdr))
  return "ok"
end

function commands.list(to, name, ...)
  local items = {...}
  local refused = charge(area_of[name], 3 * #items)
  if refused then return refused end
  local cars = {}
  for i, item in ipairs(items) do cars[i] = held_by(item) end
  registers[number(to)] = new_list(area_of[name], cars, #items)
  return "ok"
end

function commands.make(to, name, code, n)
  local refused = charge(area_of[name], number(n) + 1)
  if refused then return refused end
  registers[number(to)] = new_block(area_of[name], number(code), number(n))
  return "ok"
end

function commands.grow(target, wanted)
  local block = held_by(target)
  if not is_block(block) then return "wrong-type" end
  if number(wanted) <= block.n then return "ok" end
  local n = math.max(number(wanted), math.min(2 * block.n + 1, 2047))
  local refused = charge(block.area, n + 1)
  if refused then return refused end
  block.area.husks = block.area.husks + block.charge
  block.n, block.charge = n, n + 1
  return "ok"
end

function commands.rplaca(target, from)
  local cons = held_by(target)
  if not is_cons(cons) then return "wrong-type" end
  cons[1] = held_by(from)
  return "ok"
end

function commands.rplacd(target, from)
  local cons = held_by(target)
  if not is_cons(cons) then return "wrong-type" end
  cons[2] = held_by(from)
  owe(2)
  return "ok"
end

function commands.get(to, from, index)
  local block = held_by(from)
  return field(index, block, function(i) return fetch(to, block[i]) end)
end

function commands.put(target, index, from)
  local block = held_by(target)
  return field(index, block, function(i) block[i] = held_by(from) return "ok" end)
end

function commands.size(target)
  local block = held_by(target)
  return is_block(block) and tostring(block.n) or "wrong-type"
end

function commands.eq(one, other) return held_by(one) == held_by(other) and "t" or "nil" end
function commands.scavenge(units) return scavenge(number(units)) end
commands["page-out"] = function() return "ok" end

function commands.stats()
  local lines = {}
  for i, area in ipairs(areas) do lines[i] = string.format("area %s %d %d", area.name, area.charged, area.quota) end
  return table.concat(lines, "\n")
end

---- Inputs

local function words_of(line)
  local words = {}
  for word in line:gmatch("%S+") do words[#words + 1] = word end
  return words
end

-- The world up to `trace`. References may be to later objects, so they are filled in at the end.
local function read_world(lines)
  local objects, filling, roots, has_capacity = {}, {}, {}, false
  local function fill(object, index, word)
    if word:sub(1, 1) == "#" then filling[#filling + 1] = {object, index, number(word:sub(2))}
    else object[index] = value_of(word) end
  end
  local function add(object) objects[#objects + 1] = object return object end
  local readers = {}
  readers["lispm-world"] = function() end
  function readers.space(regions, _, count, _, rate)
    space = {regions = number(regions), registers = number(count), rate = number(rate)}
  end
  function readers.area(name, kind, quota)
    areas[#areas + 1] = {name = name, kind = kind, quota = number(quota), charged = 0, husks = 0}
    area_of[name] = areas[#areas]
  end
  function readers.capacity() has_capacity = true end
  function readers.cons(name, car, cdr)
    local cons = add(new_cons(area_of[name], 2))
    fill(cons, 1, car)
    fill(cons, 2, cdr)
  end
  function readers.block(name, code, ...)
    local block = add(new_block(area_of[name], number(code), select("#", ...)))
    for i, word in ipairs{...} do fill(block, i, word) end
  end
  function readers.run(name, ...)
    local cell = new_list(area_of[name], {}, select("#", ...))
    for _, word in ipairs{...} do
      fill(add(cell), 1, word)
      cell = cell[2]
    end
  end
  function readers.root(register, word) roots[number(register)] = word end
  header[1] = "lispm-world 2"
  for line in lines do
    if line == "trace" then break end
    local words = words_of(line)
    if words[1] == "space" or words[1] == "area" or words[1] == "capacity" then header[#header + 1] = line end
    readers[words[1]](table.unpack(words, 2))
  end
  if not has_capacity then header[#header + 1] = "capacity" .. (" 0"):rep(number(words_of(header[2])[5])) end
  for _, one in ipairs(filling) do one[1][one[2]] = objects[one[3] + 1] end
  for register, word in pairs(roots) do
    registers[register] = word:sub(1, 1) == "#" and objects[number(word:sub(2)) + 1] or value_of(word)
  end
  for object in pairs(held) do object.area.charged = object.area.charged + object.charge end
end

-- Allocates until Lua has ended a cycle by itself.
local function stress()
  local before = cycles
  while cycles == before do local _ = {{}, {}, {}} end
end

local function tell_collections()
  local file = os.getenv("LISPM_COLLECTIONS") and io.open(os.getenv("LISPM_COLLECTIONS"), "a")
  if file then
    file:write("0 ", cycles, "\n")
    file:close()
  end
end

io.stdout:setvbuf("line")
local lines, count = io.lines(), 0
read_world(lines)
for line in lines do
  if line == "end" then break end
  count = count + 1
  if count % (count < 400 and STRESS or LATER) == 0 then stress() end
  local words = words_of(line)
  io.write(commands[words[1]](table.unpack(words, 2)), "\n")
end
tell_collections()
os.exit(0, false)
