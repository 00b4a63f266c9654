-- Plays messages to a filter that refuses the recipient <noreply@example.net>, and adds the header field X-Filtered
-- with the mail server's name where `adds` is "yes": the filters of examples/, and the first one of docs/C.md. It is
-- run from the repository's top, and the filter's address is the global `address`.
dofile("tests/interop/common.lua")

-- A recipient, and the text of the refusal where there is one.
local function recipient(c, name, verdict)
    step(c, "rcpt " .. name, mt.rcptto(c, name), verdict)
end

local c = opened()
mt.macro(c, SMFIC_CONNECT, "j", "mx.example.net")
greet(c)
for number = 1, 3 do
    step(c, "mail", mt.mailfrom(c, "<ada@example.org>"))
    recipient(c, "<bob@example.net>")
    recipient(c, "<noreply@example.net>", "code")
    recipient(c, "<carl@example.net>")
    step(c, "data", mt.data(c))
    step(c, "header", mt.header(c, "Subject", "message " .. number))
    step(c, "eoh", mt.eoh(c))
    step(c, "eom", mt.eom(c))
    check("X-Filtered", mt.eom_check(c, MT_HDRADD, "X-Filtered", "mx.example.net") == (adds == "yes"))
end
step(c, "mail", mt.mailfrom(c, "<ada@example.org>"))
recipient(c, "<noreply@example.net>", "code")
mt.abort(c)
mt.disconnect(c)
