-- The protocol bits of a rule file: all of them offered, none, and a few.
dofile("tests/interop/common.lua")

local WANTED = {SMFIP_NOHELO, SMFIP_NOUNKNOWN, SMFIP_NODATA, SMFIP_NR_CONN, SMFIP_NR_HDR, SMFIP_NR_BODY, SMFIP_SKIP,
    SMFIP_HDR_LEADSPC}
local NOT_WANTED = {SMFIP_NOCONNECT, SMFIP_NOMAIL, SMFIP_NORCPT, SMFIP_NOBODY, SMFIP_NOHDRS, SMFIP_NOEOH, SMFIP_NR_HELO,
    SMFIP_NR_MAIL, SMFIP_NR_RCPT, SMFIP_NR_DATA, SMFIP_NR_UNKN, SMFIP_NR_EOH}

-- Whether these bits, and no others, are negotiated.
local function check_agreed(c, expected)
    for _, bit in ipairs(NOT_WANTED) do
        check("bit " .. bit, not mt.test_option(c, bit))
    end
    for _, bit in ipairs(WANTED) do
        check("bit " .. bit, mt.test_option(c, bit) == (expected[bit] == true))
    end
end

-- All: steps that are not answered leave the reply as it was, and values come with their leading space.
local c = opened()
check_agreed(c, {
    [SMFIP_NOHELO] = true, [SMFIP_NOUNKNOWN] = true, [SMFIP_NODATA] = true, [SMFIP_NR_CONN] = true,
    [SMFIP_NR_HDR] = true, [SMFIP_NR_BODY] = true, [SMFIP_SKIP] = true, [SMFIP_HDR_LEADSPC] = true,
})
check("connect", mt.conninfo(c, "mail.example.org", "192.0.2.1") == nil)
check("helo was sent", not pcall(mt.helo, c, "mail.example.org"))
step(c, "mail", mt.mailfrom(c, "<ada@example.org>"))
step(c, "rcpt", mt.rcptto(c, "<bob@example.net>"))
check("data was sent", not pcall(mt.data, c))
check("unknown was sent", not pcall(mt.unknown, c, "EXPN bob"))
step(c, "header", mt.header(c, "X-One", "one"))
step(c, "header", mt.header(c, "X-Two", "two"))
step(c, "eoh", mt.eoh(c))
step(c, "body", mt.bodystring(c, "one\r\n"))
step(c, "body", mt.bodystring(c, "skip\r\n"))
step(c, "body", mt.bodystring(c, "two\r\n"))
step(c, "eob", mt.eom(c), "reject")
mt.disconnect(c)

-- None: each step is answered, and SKIP is not given.
c = opened(0, 0)
check_agreed(c, {})
step(c, "connect", mt.conninfo(c, "mail.example.org", "192.0.2.1"), "tempfail")
mt.disconnect(c)

-- A few.
c = opened(0, SMFIP_NR_CONN + SMFIP_NOHELO)
check_agreed(c, {[SMFIP_NR_CONN] = true, [SMFIP_NOHELO] = true})
check("connect", mt.conninfo(c, "mail.example.org", "192.0.2.1") == nil)
step(c, "mail", mt.mailfrom(c, "<ada@example.org>"))
step(c, "rcpt", mt.rcptto(c, "<bob@example.net>"))
step(c, "unknown", mt.unknown(c, "EXPN bob"))
step(c, "data", mt.data(c))
step(c, "header", mt.header(c, "X-Two", "two"), "reject")
mt.abort(c)
step(c, "mail", mt.mailfrom(c, "<ada@example.org>"))
step(c, "rcpt", mt.rcptto(c, "<bob@example.net>"))
step(c, "data", mt.data(c))
step(c, "header", mt.header(c, "X-One", "one"))
step(c, "eoh", mt.eoh(c))
step(c, "body", mt.bodystring(c, "skip\r\n"), "continue")
step(c, "body", mt.bodystring(c, "two\r\n"), "continue")
step(c, "eob", mt.eom(c))
mt.disconnect(c)
