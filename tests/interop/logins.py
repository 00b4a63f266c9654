"""Who may log in to a Postfix of tests/interop.sh: a server of Dovecot's authentication protocol, which takes any name
that comes with the password."""
import base64
import socketserver
import threading

PASSWORD = 'a password'
BEGINNING = 'VERSION\t1\t1\nMECH\tPLAIN\tplaintext\nSPID\t1\nCUID\t1\nCOOKIE\t1\nDONE\n'


class Handler(socketserver.StreamRequestHandler):
    """A connection of Postfix."""

    def handle(self):
        self.wfile.write(BEGINNING.encode())
        for line in self.rfile:
            words = line.decode().rstrip('\n').split('\t')
            if words[0] == 'AUTH':
                _, user, password = base64.b64decode(words[-1].removeprefix('resp=')).decode().split('\0')
                ended = 'OK\t%s\tuser=%s\n' if password == PASSWORD else 'FAIL\t%s\tuser=%s\n'
                self.wfile.write((ended % (words[1], user)).encode())


class Logins:
    """The running server."""

    def __enter__(self):
        self.server = socketserver.ThreadingTCPServer(('127.0.0.1', 0), Handler)
        self.server.daemon_threads = True
        threading.Thread(target=self.server.serve_forever, daemon=True).start()
        return self

    def __exit__(self, *_):
        self.server.shutdown()
        self.server.server_close()

    def settings(self):
        """The lines of main.cf by which Postfix asks it."""
        return ('smtpd_sasl_auth_enable = yes\nsmtpd_sasl_type = dovecot\nsmtpd_sasl_path = inet:127.0.0.1:%d\n'
                % self.server.server_address[1])
