# A recording of a shape whose links have bytes, without its last line `end`.
# usage: awk -v shape=SHAPE -v count=COUNT -v size=SIZE -f links.awk
#   calls: link 2 calls GetSession so many times, in lines of so many bytes
#   message: link 2 sends one message of so many bytes, in lines of so many
#   unbegun: so many links send so many bytes of a line of their handshake, each in a line of the recording
#   begun: so many links begin, and each sends so many bytes of a message of 1 MiB
#   beside: so many links begin, and then the first one sends so many bytes of a message of 1 MiB, one a line
#   quiet: link 2 sends so many messages of 16 bytes, the smallest that there are, as many a line as fit
#   lists: link 2 calls ListSessions so many times beside so many sessions, as many a line as fit

function begin_link(who) { print "link " who " 0\nin " who " " handshake }

# Puts bytes in hex behind those that link 2 has sent, and has a line where there are enough for it.
function send(hex) {
    waiting = waiting hex
    while (length(waiting) >= 2 * size) {
        print "in 2 " substr(waiting, 1, 2 * size)
        waiting = substr(waiting, 2 * size + 1)
    }
}

function flush() { if (waiting) print "in 2 " waiting; waiting = "" }

# So many times the same.
function times(text, many,  all) {
    for (all = ""; many; many = int(many / 2)) { if (many % 2) all = all text; text = text text }
    return all
}

# A number as 32 bits, the lowest byte first.
function word(number,  all, i) {
    for (i = 0; i < 4; i++) { all = all sprintf("%02x", number % 256); number = int(number / 256) }
    return all
}

# The first bytes of a message of a kind that is not known, with a list of bytes, which is so long in all.
function front(bytes) { return "6c050001" word(bytes - 24) "0100000008000000" "0801670002617900" word(bytes - 28) }

function begin_session() {
    print "connect 1 0"
    print "call 1 1 create 1000 0 login tty user % % 0 % % false % %"
}

BEGIN {
    most = 8180 # as many bytes as a line may have
    handshake = "00415554482045585445524e414c2033300d0a424547494e0d0a"
    call = "6c01000107000000010000006700000001016f00170000002f6f72672f667265656465736b746f702f6c6f67696e31000201" \
        "73001e0000006f72672e667265656465736b746f702e6c6f67696e312e4d616e616765720000030173000a00000047657453" \
        "657373696f6e000000000000080167000173000002000000633100"
    list = "6c01000100000000010000005d00000001016f00170000002f6f72672f667265656465736b746f702f6c6f67696e31000201" \
        "73001e0000006f72672e667265656465736b746f702e6c6f67696e312e4d616e616765720000030173000c0000004c697374" \
        "53657373696f6e7300000000"
    print "login-recording 1\nuser 1000 1000 alice\ngo"
    if (shape == "calls") {
        begin_session(); begin_link(2)
        for (i = 1; i <= count; i++) send(call)
        flush()
    } else if (shape == "message") {
        begin_link(2)
        if (count) { send(front(count)); for (i = 28; i < count; i++) send("00") }
        flush()
    } else if (shape == "unbegun") {
        said = "00" times("41", size - 1)
        for (i = 1; i <= count; i++) { print "link " i " 0"; if (size) print "in " i " " said }
    } else if (shape == "begun") {
        for (i = 1; i <= count; i++) {
            begin_link(i)
            if (size) print "in " i " " front(1048576)
            for (sent = 28; sent < size; sent += part) {
                part = size - sent < most ? size - sent : most
                print "in " i " " times("00", part)
            }
        }
    } else if (shape == "beside") {
        for (i = 2; i <= size + 1; i++) begin_link(i)
        size = 1
        if (count) { send(front(1048576)); for (i = 28; i < count; i++) send("00") }
    } else if (shape == "quiet") {
        begin_link(2)
        size = int(most / 16) * 16
        for (i = 1; i <= count; i++) send("6c050001000000000100000000000000")
        flush()
    } else if (shape == "lists") {
        for (sessions = size; sessions; sessions--) { if (!begun++) begin_session(); else print "call 1 1 create 1000 0 login tty user % % 0 % % false % %" }
        begin_link(2)
        size = int(most / (length(list) / 2)) * (length(list) / 2)
        for (i = 1; i <= count; i++) send(list)
        flush()
    }
}
