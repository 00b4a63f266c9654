-- Each verdict at each stage. Where one ends the message, the next message begins on the same connection.
dofile("tests/interop/common.lua")

-- One stage after the other of a message, up to the one that has this verdict.
local STAGES = {
    {"mail", function(c, verdict)
        return mt.mailfrom(c, "<" .. verdict .. "@example.org>", "SIZE=100")
    end},
    {"rcpt", function(c, verdict)
        return mt.rcptto(c, "<" .. verdict .. "@example.net>", "NOTIFY=NEVER")
    end},
    {"data", function(c, verdict)
        return mt.data(c)
    end},
    {"header", function(c, verdict)
        return mt.header(c, "X-At-Header", verdict)
    end},
    {"eoh", function(c, verdict)
        return mt.eoh(c)
    end},
    {"body", function(c, verdict)
        return mt.bodystring(c, verdict .. " at body\r\n")
    end},
    {"eob", function(c, verdict)
        return mt.eom(c)
    end},
}

-- What is sent before a stage, so that it finds its verdict there.
local function prepare(c, stage, verdict)
    if stage == "data" then
        mt.macro(c, SMFIC_MAIL, "i", "1", "at_data", verdict)
    elseif stage == "eoh" then
        step(c, "header", mt.header(c, "X-At-Eoh", verdict))
    elseif stage == "eob" then
        step(c, "body", mt.bodystring(c, verdict .. " at end\r\n"))
    end
end

-- A message in which this stage has this verdict.
local function message(c, at, verdict)
    local name = "at " .. at .. " " .. verdict .. ": "
    if at == "data" then
        prepare(c, at, verdict)
    end
    for _, entry in ipairs(STAGES) do
        local stage, send = entry[1], entry[2]
        if stage == at then
            if stage ~= "data" then
                prepare(c, at, verdict)
            end
            step(c, name .. stage, send(c, verdict), verdict)
            break
        end
        step(c, name .. stage, send(c, "continue"))
    end
    if at ~= "eob" then
        mt.abort(c)
    end
end

for _, verdict in ipairs({"continue", "accept", "reject", "tempfail", "code"}) do
    local c = opened()
    step(c, "connect", mt.conninfo(c, verdict .. ".example.org", "192.0.2.1"), verdict)
    mt.disconnect(c)
    c = opened()
    step(c, "connect", mt.conninfo(c, "mail.example.org", "192.0.2.1"))
    step(c, "helo", mt.helo(c, verdict .. ".example.org"), verdict)
    mt.disconnect(c)
end
local c = opened()
step(c, "address", mt.conninfo(c, "mail.example.org", "192.0.2.66"), "reject")
mt.disconnect(c)
c = opened()
step(c, "no address", mt.conninfo(c, "mail.example.org", "unspec"))
mt.disconnect(c)

c = opened()
greet(c)
for _, entry in ipairs(STAGES) do
    for _, verdict in ipairs(VERDICTS) do
        if verdict ~= "skip" or entry[1] == "body" then
            message(c, entry[1], verdict)
        end
    end
end
mt.disconnect(c)
