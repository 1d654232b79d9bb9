-- Puts by `wrk`, which ends each thread after so many answers: `wrk -s ask.lua URL -- KIND TOKEN FILE ANSWERS`. See
-- ../real_clients.py for the kinds. `wrk` has no chunked uploads and no expectations; here they are made by hand.
local chunked, body, wanted, told = false, "", 1, 0

function init(args)
  local file = assert(io.open(args[3], "rb"))
  body, chunked, wanted = file:read("*a"), args[1] == "chunked", tonumber(args[4])
  file:close()
  wrk.method = "POST"
  wrk.headers["Authorization"] = "Bearer " .. args[2]
  wrk.headers["Expect"] = args[1] == "expected" and "100-continue" or nil
  wrk.headers["Transfer-Encoding"] = chunked and "chunked" or nil
end

function request()
  if not chunked then
    return wrk.format(nil, nil, nil, body)
  end
  return wrk.format() .. string.format("%x\r\n%s\r\n0\r\n\r\n", #body, body)
end

function response(status, _, text)
  if told < wanted then
    io.write("HTTP/1.1 ", status, "\n", text, "\n")
  end
  told = told + 1
  if told == wanted then
    wrk.thread:stop()
  end
end

function done(_, latency)
  io.write("seconds ", latency.max / 1e6, "\n")
end
