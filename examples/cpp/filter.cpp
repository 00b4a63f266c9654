// A filter that serves one connection after another, and refuses a recipient that takes no mail.
//
//     g++ -O2 filter.cpp -o filter $(pkg-config --cflags --libs deiruska)
//     ./filter 127.0.0.1 8891
#include <arpa/inet.h>
#include <deiruska.h>
#include <sys/socket.h>
#include <unistd.h>

#include <cstdlib>
#include <iostream>
#include <stdexcept>
#include <string>
#include <vector>

namespace {

const std::string REFUSED = "<noreply@example.net>", REFUSAL = "550 5.1.1 This address takes no mail";

const uint8_t *bytes(const std::string &text) { return reinterpret_cast<const uint8_t *>(text.data()); }

void check(int32_t result) {
    if (result != DEIRUSKA_OK)
        throw std::runtime_error("deiruska: " + std::to_string(result));
}

// An object of the library, which is freed with it. It isn't copied, since its handle is not to be duplicated.
template <typename Kind> struct Object {
    Kind handle = DEIRUSKA_EMPTY;
    Object() = default;
    Object(const Object &) = delete;
    Object &operator=(const Object &) = delete;
    ~Object() { deiruska_free(&handle.handle); }
};

// The address of the last recipient so far.
std::string last_recipient(Object<deiruska_filter> &filter) {
    deiruska_bytes address = DEIRUSKA_NO_BYTES;
    size_t count = 0;
    check(deiruska_filter_recipients(&filter.handle, &count));
    check(deiruska_filter_recipient(&filter.handle, count - 1, &address));
    return std::string(reinterpret_cast<const char *>(address.at), address.len);
}

void answer(Object<deiruska_filter> &filter) {
    Object<deiruska_answer> given;
    uint32_t stage = 0;
    check(deiruska_answer_new(&given.handle));
    check(deiruska_filter_asked(&filter.handle, &stage));
    if (stage == DEIRUSKA_STAGE_RCPT && last_recipient(filter) == REFUSED)
        check(deiruska_answer_code(&given.handle, bytes(REFUSAL), REFUSAL.size()));
    check(deiruska_filter_answer(&filter.handle, &given.handle));
}

void send_pending(Object<deiruska_filter> &filter, int connection) {
    deiruska_bytes pending = DEIRUSKA_NO_BYTES;
    check(deiruska_filter_pending(&filter.handle, &pending));
    ssize_t sent = send(connection, pending.at, pending.len, MSG_NOSIGNAL);
    if (sent < 0)
        throw std::runtime_error("the mail server is gone");
    check(deiruska_filter_sent(&filter.handle, static_cast<size_t>(sent)));
}

void feed(Object<deiruska_filter> &filter, const std::vector<uint8_t> &piece, size_t &at) {
    size_t taken = 0;
    check(deiruska_filter_feed(&filter.handle, piece.data() + at, piece.size() - at, &taken));
    at += taken;
}

// Serves a connection until the mail server quits or is gone.
void serve(int connection) {
    Object<deiruska_filter> filter;
    std::vector<uint8_t> piece;
    size_t at = 0;
    check(deiruska_filter_new(&filter.handle, 6, 0, DEIRUSKA_PROTOCOL_NOBODY));
    for (;;) {
        switch (deiruska_filter_step(&filter.handle)) {
        case DEIRUSKA_STEP_SEND:
            send_pending(filter, connection);
            break;
        case DEIRUSKA_STEP_ANSWER:
            answer(filter);
            break;
        case DEIRUSKA_STEP_FEED:
            if (at == piece.size()) {
                piece.resize(65536);
                ssize_t count = recv(connection, piece.data(), piece.size(), 0);
                if (count <= 0)
                    return;
                piece.resize(static_cast<size_t>(count));
                at = 0;
            }
            feed(filter, piece, at);
            break;
        default:
            return;
        }
    }
}

int listener_at(const char *host, const char *port) {
    sockaddr_in here{};
    int listener = socket(AF_INET, SOCK_STREAM, 0), one = 1;
    here.sin_family = AF_INET;
    here.sin_port = htons(static_cast<uint16_t>(std::atoi(port)));
    if (listener < 0 || inet_pton(AF_INET, host, &here.sin_addr) != 1 ||
        setsockopt(listener, SOL_SOCKET, SO_REUSEADDR, &one, sizeof one) != 0 ||
        bind(listener, reinterpret_cast<sockaddr *>(&here), sizeof here) != 0 || listen(listener, 64) != 0)
        throw std::runtime_error("can't listen there");
    return listener;
}

} // namespace

int main(int count, char **words) {
    if (count != 3) {
        std::cerr << "usage: filter HOST PORT\n";
        return 1;
    }
    int listener = listener_at(words[1], words[2]);
    for (;;) {
        int connection = accept(listener, nullptr, nullptr);
        try {
            serve(connection);
        } catch (const std::exception &fault) {
            std::cerr << fault.what() << "\n";
        }
        close(connection);
    }
}
