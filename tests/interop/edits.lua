-- Each edit, with all actions offered, with each of them alone, and with none.
dofile("tests/interop/common.lua")

-- The actions, and the checks of the edits that need each.
local KINDS = {
    {SMFIF_ADDHDRS, {
        {MT_HDRADD, "X-Added", "added"}, {MT_HDRINSERT, "X-Top", "inserted at the top", 0},
        {MT_HDRINSERT, "X-Third", "inserted third", 2}, {MT_HDRADD, "X-After", "not after accept"},
    }},
    {SMFIF_CHGHDRS, {{MT_HDRCHANGE, "Subject", "changed"}, {MT_HDRDELETE, "X-Remove"}}},
    {SMFIF_ADDRCPT, {{MT_RCPTADD, "<added@example.net>"}}},
    {SMFIF_DELRCPT, {{MT_RCPTDELETE, "<bob@example.net>"}}},
    {SMFIF_CHGBODY, {{MT_BODYCHANGE}}},
    {SMFIF_QUARANTINE, {{MT_QUARANTINE, "looked at by a person"}}},
    {SMFIF_CHGFROM, {}},
    {SMFIF_ADDRCPT_PAR, {}},
}
-- All of them.
local ALL = 0xff

-- The whole message, whose end has this verdict.
local function message(c, sender, verdict)
    step(c, "mail", mt.mailfrom(c, sender))
    step(c, "rcpt", mt.rcptto(c, "<bob@example.net>"))
    step(c, "data", mt.data(c))
    step(c, "header", mt.header(c, "Subject", "first"))
    step(c, "header", mt.header(c, "X-Remove", "gone"))
    step(c, "eoh", mt.eoh(c))
    step(c, "body", mt.bodystring(c, "a body\r\n"))
    step(c, "eob", mt.eom(c), verdict)
end

-- Whether actions have this one.
local function has(actions, action)
    return math.floor(actions / action) % 2 == 1
end

-- The edits asked for are those whose action was offered.
local function check_edits(c, offered, accepted)
    for number, kind in ipairs(KINDS) do
        local action, checks = kind[1], kind[2]
        local name = "actions " .. offered .. ", kind " .. number
        check(name .. ": negotiated", mt.test_action(c, action) == has(offered, action))
        for place, edit in ipairs(checks) do
            local expected = has(offered, action) and not (accepted and edit[2] == "X-After")
            check(name .. ", edit " .. place, mt.eom_check(c, (table.unpack or unpack)(edit)) == expected)
        end
    end
    check("X-After changed", not mt.eom_check(c, MT_HDRCHANGE, "X-After"))
end

-- A connection with these actions offered.
local function play(offered)
    local c = opened(offered, 0)
    greet(c)
    message(c, "<ada@example.org>", "continue")
    check_edits(c, offered, false)
    mt.disconnect(c)
end

-- Recorded: one connection, one message.
if recorded ~= nil then
    local c = opened()
    greet(c)
    message(c, "<accept@example.org>", "accept")
    check_edits(c, ALL, true)
    mt.disconnect(c)
    return
end

play(ALL)
play(0)
for _, kind in ipairs(KINDS) do
    play(kind[1])
    play(ALL - kind[1])
end
