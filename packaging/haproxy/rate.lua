-- SPDX-License-Identifier: Apache-2.0
-- How many bytes of requests each certificate may send in a second, over all its connections: more wait, and nothing is
-- lost. A line of the log has the name of a certificate that is slowed down, at most one in a minute. HAProxy's own
-- limit, `filter bwlim-in`, needs HAProxy 2.7.

-- How many bytes a certificate may still send, when that was counted, and when it was logged last: by its name.
local left = {}

-- How long bytes wait before they are tried again, and how long after that HAProxy looks again where none wait, both in
-- milliseconds; and how long a line isn't repeated, in seconds.
local PAUSE, NOTHING, QUIET = 50, 3600000, 60

local Rate = { id = "rate of a certificate", flags = 0 }
Rate.__index = Rate

function Rate:new()
    return setmetatable({}, Rate)
end

-- A connection begins: only its requests are counted.
function Rate:start_analyze(txn, channel)
    if not channel:is_resp() then
        filter.register_data_filter(self, channel)
    end
end

-- What a certificate may send now. It saves up a second's bytes at most.
local function counted(gate, most, now)
    local found = left[gate] or { bytes = most, at = now, logged = -QUIET }
    left[gate] = found
    found.bytes = math.min(most, found.bytes + (now - found.at) * most)
    found.at = now
    return found
end

-- Requests are there: passes on as many bytes as the certificate may send now.
function Rate:tcp_payload(txn, channel)
    -- The name may be known only once the connection's first bytes are there.
    self.gate = self.gate or txn:get_var("sess.gate") or "-"
    local clock = core.now()
    local now = clock.sec + clock.usec / 1000000
    local found, size = counted(self.gate, Rate.most, now), channel:input()
    local passed = math.max(0, math.min(size, math.floor(found.bytes)))
    -- HAProxy drops what it still holds when the gate has ended its half: that passes at once, on credit.
    if not channel:may_recv() then
        passed = size
    end
    found.bytes = found.bytes - passed
    if passed < size then
        if now - found.logged >= QUIET then
            found.logged = now
            -- txn:Warning would write the line twice, to the log and to standard error.
            io.stdout:write("gate ", self.gate, ": slowed down to ", Rate.most, " bytes a second\n")
            io.stdout:flush()
        end
    end
    -- HAProxy keeps the moment of the last pause, and comes back thousands of times a second once that has passed. So each
    -- call names its next moment.
    filter.wake_time(passed < size and PAUSE or NOTHING)
    return passed
end

core.register_filter("rate", Rate, function(filter, arguments)
    Rate.most = tonumber(arguments[1])
    return filter
end)
