-- Plays two messages on a filter that lets all mail go on, with the tester miltertest:
--     miltertest -s examples/miltertest.lua -D address=inet:8891@127.0.0.1
-- It prints `2 messages` where each reply is Continue, no action is negotiated, and no edit is asked for; else what was
-- wrong, with status 1.

local function fail(what)
    mt.echo(what)
    error(what)
end

local connection = mt.connect(address)
if connection == nil then
    fail("not connected to " .. address)
end

-- Checks a step: that it was sent, and that Continue was replied.
local function step(name, fault)
    if fault ~= nil then
        fail(name .. ": " .. fault)
    end
    if mt.getreply(connection) ~= SMFIR_CONTINUE then
        fail(name .. ": the reply is not Continue")
    end
end

local function check_end(name)
    step(name, mt.eom(connection))
    local ops = {MT_HDRADD, MT_HDRCHANGE, MT_HDRDELETE, MT_HDRINSERT, MT_BODYCHANGE, MT_QUARANTINE}
    for _, op in ipairs(ops) do
        if mt.eom_check(connection, op) then
            fail(name .. ": an edit is asked for")
        end
    end
end

if mt.negotiate(connection, nil, nil, nil) ~= nil then
    fail("no options were negotiated")
end
for _, action in ipairs({SMFIF_ADDHDRS, SMFIF_CHGHDRS, SMFIF_CHGBODY, SMFIF_ADDRCPT, SMFIF_DELRCPT}) do
    if mt.test_action(connection, action) then
        fail("an action was negotiated")
    end
end

mt.macro(connection, SMFIC_CONNECT, "j", "mx.example.net")
step("connect", mt.conninfo(connection, "mail.example.org", "192.0.2.1"))
step("helo", mt.helo(connection, "mail.example.org"))
mt.macro(connection, SMFIC_MAIL, "i", "1")
step("mail", mt.mailfrom(connection, "<ada@example.org>", "SIZE=100"))
step("recipient", mt.rcptto(connection, "<bob@example.net>"))
step("unknown command", mt.unknown(connection, "EXPN bob"))
mt.abort(connection)
for number = 1, 2 do
    step("mail", mt.mailfrom(connection, "<ada@example.org>"))
    step("recipient", mt.rcptto(connection, "<bob@example.net>"))
    step("recipient", mt.rcptto(connection, "<carl@example.net>"))
    step("data", mt.data(connection))
    step("header", mt.header(connection, "Subject", "message " .. number))
    step("header", mt.header(connection, "From", "ada@example.org"))
    step("end of headers", mt.eoh(connection))
    step("body", mt.bodystring(connection, "one line\r\n"))
    step("body", mt.bodyrandom(connection, 100000))
    check_end("end of message " .. number)
end
mt.disconnect(connection)
mt.echo("2 messages")
