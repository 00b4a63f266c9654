-- What the scripts of tests/interop.sh share. They are run from the repository's top, and the filter's address is the
-- global `address`.

VERDICTS = {"continue", "accept", "reject", "tempfail", "discard", "code", "skip"}
REPLIES = {
    continue = SMFIR_CONTINUE, accept = SMFIR_ACCEPT, reject = SMFIR_REJECT, tempfail = SMFIR_TEMPFAIL,
    discard = SMFIR_DISCARD, code = SMFIR_REPLYCODE, skip = SMFIR_SKIP,
}

-- Ends the script.
function fail(what)
    mt.echo(what)
    error(what)
end

-- Fails where this doesn't hold.
function check(what, holds)
    if not holds then
        fail(what)
    end
end

-- A connection on which options are negotiated: by default the mail server offers all that miltertest knows. miltertest
-- 2.11 takes the protocol bits before the actions, where its manual has the actions first.
function opened(actions, protocol)
    local connection = mt.connect(address, 100, 0.05)
    check("not connected to " .. address, connection ~= nil)
    check("no options were negotiated", mt.negotiate(connection, nil, protocol, actions) == nil)
    return connection
end

-- A step: it was sent, and the reply is the one of this verdict.
function step(connection, name, fault, verdict)
    check(name .. ": " .. tostring(fault), fault == nil)
    local reply = mt.getreply(connection)
    if reply ~= REPLIES[verdict or "continue"] then
        fail(name .. ": the reply is " .. string.char(reply) .. ", not " .. (verdict or "continue"))
    end
end

-- The steps of a client, each of which goes on.
function greet(connection)
    step(connection, "connect", mt.conninfo(connection, "mail.example.org", "192.0.2.1"))
    step(connection, "helo", mt.helo(connection, "mail.example.org"))
end

-- The steps of a message before its end, each of which goes on.
function send(connection, subject, body)
    step(connection, "mail", mt.mailfrom(connection, "<ada@example.org>"))
    step(connection, "rcpt", mt.rcptto(connection, "<bob@example.net>"))
    step(connection, "data", mt.data(connection))
    step(connection, "header", mt.header(connection, "Subject", subject))
    step(connection, "eoh", mt.eoh(connection))
    step(connection, "body", mt.bodystring(connection, body))
end
