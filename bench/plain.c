// What `login replay` does, as a plain program: the measure of what being proved costs. It knows connects, sessions
// that are created on no seat by root, and control and uncontrol of them; it keeps a journal, and stops at any
// other line with status 2.
#define _GNU_SOURCE
#include <stdio.h>
#include <stdlib.h>
#include <string.h>

enum kind { CONNECT, CREATE, CONTROL, UNCONTROL };
enum fact { CONN, USER, OWNER, SESS, CTL };
struct mark { enum fact fact; unsigned key, value; };
struct entry { enum kind kind; unsigned connection, serial, session; int force, denied, marks; struct mark *made; };
static struct { struct entry *entries; size_t length, room; } journal;
static struct { unsigned user, controller; } *sessions;
static unsigned count_sessions, room_sessions;
static unsigned *connected, room_connected; // the user of each connection and 1, or 0
static int known[65536];
static char *words[32];

static void refuse(void) { fflush(stdout); exit(2); }

static void *more(void *list, unsigned room, size_t size) {
    void *wider = realloc(list, room * size);
    if (!wider) exit(5);
    return wider;
}

static unsigned number(const char *word) {
    unsigned long n = 0;
    if (!*word || (*word == '0' && word[1])) refuse();
    for (; *word; word++) {
        if (*word < '0' || *word > '9' || (n = 10 * n + (*word - '0')) > 4294967295) refuse();
    }
    return n;
}

static void put(const char *text) { fputs_unlocked(text, stdout); }

static void put_number(unsigned n) {
    char digits[12], *at = digits + 11;
    *at = 0;
    do *--at = '0' + n % 10; while (n /= 10);
    put(at);
}

static void set(struct entry *entry, enum fact fact, unsigned key, unsigned value) {
    static const char *names[] = { "conn ", "user ", "owner ", "sess c", "ctl c" };
    entry->made = more(entry->made, entry->marks + 1, sizeof(struct mark));
    entry->made[entry->marks++] = (struct mark){ fact, key, value };
    put(" set "), put(names[fact]), put_number(key), put(" ");
    if (fact == USER) put("known");
    else if (fact == OWNER) put("fifo "), put_number(entry->connection), put(" c"), put_number(value);
    else if (fact == SESS) put("open "), put_number(value), put(" - 0 tty user");
    else if (fact == CTL && !value) put("-");
    else put_number(value);
    put("\n");
}

static void create(struct entry *entry) {
    unsigned user = number(words[4]), id = count_sessions + 1;
    if (id >= room_sessions) sessions = more(sessions, room_sessions = 2 * id + 8, sizeof *sessions);
    sessions[id].user = user, sessions[id].controller = 0, count_sessions = id;
    put(" granted c"), put_number(id), put(" /org/freedesktop/login1/session/c"), put_number(id);
    put(" /run/user/"), put_number(user), put(" "), put_number(id), put(" "), put_number(user), put(" % 0 false\n");
    if (!known[user % 65536]) set(entry, USER, user, 1), put(" all user-new "), put_number(user), put("\n");
    known[user % 65536] = 1;
    set(entry, OWNER, id, id), set(entry, SESS, id, user);
    put(" all session-new c"), put_number(id), put("\n");
}

// Why this is denied, or 0.
static const char *broken(const struct entry *entry) {
    if (!entry->session || entry->session > count_sessions) return "P04 no-such-session";
    unsigned caller = connected[entry->connection] - 1, controller = sessions[entry->session].controller;
    if (caller && caller != sessions[entry->session].user) return "P10 not-owner";
    if (entry->kind == UNCONTROL) return controller == entry->connection ? 0 : "P18 not-in-control";
    if (entry->force) return caller ? "P09 not-root" : 0;
    return controller && controller != entry->connection ? "P17 controlled " : 0;
}

static void control(struct entry *entry) {
    const char *rule = broken(entry);
    unsigned next = entry->kind == CONTROL ? entry->connection : 0;
    if ((entry->denied = rule != 0)) {
        put(" denied "), put(rule);
        if (rule[1] == '1' && rule[2] == '7') put_number(sessions[entry->session].controller);
        put("\n");
        return;
    }
    put(" granted\n");
    if (sessions[entry->session].controller != next) set(entry, CTL, entry->session, next);
    sessions[entry->session].controller = next;
}

static void step(int count) {
    struct entry entry = { 0 };
    int is_call = !strcmp(words[0], "call");
    if (count < 3 || (!is_call && strcmp(words[0], "connect"))) refuse();
    entry.connection = number(words[1]), entry.serial = number(words[2]);
    if (!is_call && count == 3) {
        if (entry.connection >= room_connected) {
            unsigned before = room_connected;
            connected = more(connected, room_connected = 2 * entry.connection + 8, sizeof *connected);
            memset(connected + before, 0, (room_connected - before) * sizeof *connected);
        }
        put(" granted\n");
        connected[entry.connection] = entry.serial + 1, set(&entry, CONN, entry.connection, entry.serial);
    } else if (count == 17 && !strcmp(words[3], "create")) entry.kind = CREATE, create(&entry);
    else if (count == 6 - !strcmp(words[3], "uncontrol") && words[4][0] == 'c') {
        entry.kind = count == 6 ? CONTROL : UNCONTROL, entry.session = number(words[4] + 1);
        entry.force = count == 6 && !strcmp(words[5], "true");
        control(&entry);
    } else refuse();
    if (journal.length == journal.room) {
        journal.room = 2 * journal.room + 64;
        journal.entries = more(journal.entries, journal.room, sizeof entry);
    }
    journal.entries[journal.length++] = entry;
}

int main(void) {
    static char line[16386], copy[16386];
    int is_going = 0;
    setvbuf(stdout, 0, _IOFBF, 65536);
    while (fgets_unlocked(line, sizeof line, stdin)) {
        if (!is_going) {
            if (!strcmp(line, "go\n")) is_going = 1, put("login-transcript 1\n");
            continue;
        }
        if (!strcmp(line, "end\n")) return put("end "), put_number(journal.length), put("\n"), fflush(stdout) ? 4 : 0;
        put_number(journal.length + 1), put(" "), put(line);
        int count = 0;
        strcpy(copy, line)[strcspn(line, "\n")] = 0;
        for (char *rest = copy; rest && count < 32;) words[count++] = strsep(&rest, " ");
        step(count);
    }
    refuse();
}
