-- What `wrk` asks of a server: `wrk .. -s bench/served.lua URL -- count [TOKEN [MANY]]` or `-- put [TOKEN [MANY]]`. Without a token,
-- root's secret is 32 zero bytes. A connection sends MANY requests at once, one where it is left out.
local kind, number, name, many = "count", 0, "", 1
local threads = 0

function setup(thread)
  threads = threads + 1
  thread:set("name", "w" .. threads)
end

function init(args)
  kind = args[1] or kind
  many = tonumber(args[3]) or many
  wrk.method = "POST"
  wrk.headers["Authorization"] = "Bearer " .. (args[2] or "root." .. string.rep("0", 64))
end

local function one()
  if kind == "count" then
    return wrk.format(nil, "/tables/points/count", nil, '{"auths":[],"box":[0,1000,0,1000,0,1000]}')
  end
  number = (number + 1) % 100000
  local point = "[" .. number % 2097151 .. "," .. number * 7 % 2097151 .. "," .. number .. "]"
  return wrk.format(nil, "/tables/points/put", nil, '{"id":"' .. name .. number .. '","label":"","note":"","point":' .. point .. "}")
end

function request()
  local texts = {}
  for at = 1, many do
    texts[at] = one()
  end
  return table.concat(texts)
end
