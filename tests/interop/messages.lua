-- Several messages on one connection, of which some are given up or refused.
dofile("tests/interop/common.lua")

-- Ends a message, which is added these header fields: each name with its value, or false.
local function finish(c, name, added)
    step(c, name, mt.eom(c))
    for field, value in pairs(added) do
        for _, each in ipairs({"first", "second", "another", "the same"}) do
            local found = mt.eom_check(c, MT_HDRADD, field, each)
            check(name .. ": " .. field .. ": " .. each, found == (each == value))
        end
    end
end

local c = opened()
mt.macro(c, SMFIC_CONNECT, "j", "mx.example.net")
greet(c)
send(c, "first", "the first body\r\n")
finish(c, "first", {["X-Subject"] = "first", ["X-Body"] = "first", ["X-Client"] = "the same"})
send(c, "given up", "this is given up\r\n")
mt.abort(c)
send(c, "second", "the second body\r\n")
finish(c, "second", {["X-Subject"] = "second", ["X-Body"] = "second", ["X-Client"] = "the same"})

-- Refused at its sender, and then one with a refused recipient. (miltertest sends a step of its own
-- where one was left out.)
mt.macro(c, SMFIC_MAIL, "i", "3")
step(c, "mail", mt.mailfrom(c, "<ada@example.org>"), "tempfail")
mt.abort(c)
mt.macro(c, SMFIC_MAIL, "i", "4")
step(c, "mail", mt.mailfrom(c, "<ada@example.org>"))
step(c, "rcpt", mt.rcptto(c, "<bob@example.net>"))
step(c, "rcpt", mt.rcptto(c, "<refused@example.net>"), "reject")
step(c, "rcpt", mt.rcptto(c, "<carl@example.net>"))
step(c, "unknown", mt.unknown(c, "EXPN bob"))
step(c, "data", mt.data(c))
step(c, "header", mt.header(c, "From", "ada@example.org"))
step(c, "eoh", mt.eoh(c))
step(c, "body", mt.bodystring(c, "another\r\n"))
finish(c, "third", {["X-Subject"] = "another", ["X-Body"] = false, ["X-Client"] = "the same"})

for number = 1, 50 do
    send(c, "first", string.rep("the second body\r\n", 2500))
    finish(c, "message " .. number, {["X-Subject"] = "first", ["X-Body"] = "second", ["X-Client"] = "the same"})
end
mt.disconnect(c)
