# A recording of so many entries of a shape, without its last line `end`.
# usage: awk -v shape=SHAPE -v count=ENTRIES [-v beside=SESSIONS] -f shapes.awk
# With `beside`, so many sessions stay from the start, two of them on terminals, and the entries come behind them. In
# `next_of_many` as many are on terminals as can be, in `ticks_of_users` they are of 1,000 users in turn, and in
# `late_hints` each is locked. In `seated_stranger` there is one more, of another user, on a terminal too; in
# `next_elsewhere` and `elsewhere_stranger` there are three more on another seat, two of them of another user, who is not
# active there; where `many` is behind these names, those that stay are on that seat too.

function line(text) { print text; made++ }

function call(who, text) { line("call " who " " ++serial " " text) }

# Creates a session with this text in each place that takes one, on a terminal if that is not 0; of this user, or alice;
# on this seat, if it is on no terminal.
function create(who, vt, text, user, seat) {
    sessions++
    call(who, "create " (user ? user : 1000) " 1 " (text ? text : "login") " tty user " (text ? text : "%") " " \
        (vt ? "seat0" : seat ? seat : "%") " " vt " " (text ? text " " text " true " text " " text : "% % false % %"))
}

function create_many(who, many,  i) { for (i = 1; i <= many; i++) create(who, 0) }

# Creates so many sessions that stay.
function stay(many,  i) {
    for (i = 1; i <= many; i++)
        create(1, shape !~ /where.*_of_many/ && i <= (shape == "next_of_many" ? 63 : 2) ? i : 0, "",
            shape == "ticks_of_users" ? 1000 + i % 1000 : 0, shape ~ /where.*_of_many/ ? "seat-x" : "")
    if (shape == "late_hints") for (i = 1; i <= many; i++) call(1, "locked c" i " true")
}

function setting(i) { return i % 2 ? "true" : "false" }

# What stands before the entries.
function begin(  i, s) {
    print "login-recording 1\nuser 1000 1000 alice"
    if (shape ~ /users$/) for (i = 1; i < 1000; i++) print "user " 1000 + i " " 1000 + i " user" i
    if (shape ~ /^seated_stranger$|elsewhere/) print "user 1001 1001 bob"
    print "go"
    line("connect 1 0")
    if (beside) {
        line("connect 2 1000"); line("connect 3 1001")
        if (shape ~ /elsewhere/) line("add 226 0 drm seat-x")
        stay(beside)
        if (shape == "seated_stranger") create(1, 3, "", 1001)
        else if (shape == "sharing_stranger") line("connect 4 1064")
        else if (shape ~ /elsewhere/) {
            create(1, 0, "", 1001, "seat-x"); create(1, 0, "", 1001, "seat-x"); create(1, 0, "", 1000, "seat-x")
        }
        count += made
    }
    else if (shape == "idle_links") { for (i = 2; i <= 61; i++) line("connect " i " 0"); create(1, 0) }
    else if (shape == "links_in_turn") for (i = 2; i <= 61; i++) { line("connect " i " 0"); create(i, 0) }
    else if (shape ~ /^(control|links_that_go|properties|all_properties|settings)$/) create(1, 0)
    else if (shape == "refused") { create(1, 0); line("connect 2 1001") }
    else if (shape == "terminals") { create(1, 1); create(1, 2) }
    else if (shape == "lock_all" || shape == "kill_user") create_many(1, 16)
    else if (shape == "lists") create_many(1, 100)
    else if (shape ~ /^(inputs|reads|takes)$/) {
        create(1, 1); call(1, "control c1 false"); line("add 13 64 evdev seat0")
        if (shape != "takes") call(1, "take c1 13 64")
    } else if (shape ~ /switches$/) {
        devices = shape == "switches" ? 128 : 8
        create(1, 1); create(1, 2); call(1, "control c1 false"); call(1, "control c2 false")
        for (i = 1; i <= devices; i++) {
            line("add 14 " i " evdev seat0"); call(1, "take c1 14 " i); call(1, "take c2 14 " i)
        }
    } else if (shape ~ /^callers/) {
        for (i = 2; i <= 61; i++) line("connect " i " 0")
        for (s = 1; s <= 10; s++) { create(1, s); call(1, "control c" s " false") }
        for (i = 1; i <= 128; i++) {
            line("add 14 " i " evdev seat0")
            for (s = 1; s <= 10; s++) call(1, "take c" s " 14 " i)
        }
        if (shape == "callers_turn") line("vtkey 2")
        else if (shape == "callers_lock") call(1, "lock-all")
        else if (shape == "callers_end") call(1, "terminate-user 1000")
        else if (shape == "callers_denied") { line("connect 62 1001"); call(62, "lock-all") }
    } else if (shape == "waiting") {
        for (i = 1; i <= 1000; i++) call(1, "inhibit idle login test block")
        call(1, "inhibit shutdown login test delay"); call(1, "power poweroff")
    } else if (shape == "many_devices") for (i = 1; i <= 2000; i++) line("add 14 " i " evdev seat0")
    long = sprintf("%512s", ""); gsub(/ /, "x", long)
    # NUL, `AUTH EXTERNAL 30` and `BEGIN`, with their line ends
    greeting = "00415554482045585445524e414c2033300d0a424547494e0d0a"
}

# A session that comes and goes, as the i-th.
function come_and_go(i, text) {
    create(1, 0, text)
    if (shape ~ /idle/) call(1, "idle c" i " true")
    call(1, "close " i); line("exit c" i)
}

# A connection that comes and goes, with three sessions whose fifos it has.
function end_fifos(who,  i) {
    line("connect " who " 0"); create_many(who, 3); line("disconnect " who)
    for (i = 2; i >= 0; i--) line("exit c" (sessions - i))
}

# The i-th switch between two sessions, in which all devices of the active one are let go of.
function switch_over(i,  d) {
    line("vtkey " (1 + i % 2))
    for (d = 1; d <= devices; d++) call(1, "paused c" (2 - i % 2) " 14 " d)
}

# The i-th entry, or few that belong together.
function step(i,  who) {
    if (shape == "nothing") call(1, "nothing")
    else if (shape == "control" || shape == "idle_links") call(1, i % 2 ? "control c1 false" : "uncontrol c1")
    else if (shape == "links_in_turn") {
        who = int((i - 1) / 2) % 60 + 1
        call(who + 1, i % 2 ? "control c" who " false" : "uncontrol c" who)
    } else if (shape == "links_of_bytes") {
        line("link " (i + 1) " 0"); line("in " (i + 1) " " greeting); line("hangup " (i + 1))
    } else if (shape == "links_that_go") {
        line("connect " (i + 1) " 0"); call(i + 1, "get-session c1"); line("disconnect " (i + 1))
    } else if (shape == "fifos_that_end") end_fifos(i + 1)
    else if (shape ~ /^go/) come_and_go(i, shape ~ /texts/ ? long : "")
    else if (shape ~ /^ticks/) line("tick " i)
    else if (shape == "refused") call(2, "control c1 false")
    else if (shape == "terminals") line("vtkey " (1 + i % 2))
    else if (shape ~ /switches$/) switch_over(i)
    else if (shape == "lock_all") call(1, i % 2 ? "lock-all" : "unlock-all")
    else if (shape == "kill_user") call(1, "kill-user 1000 " (1 + i % 60))
    else if (shape == "lists") call(1, "list-sessions")
    else if (shape == "users") call(1, "linger " (1000 + i % 1000) " " setting(int(i / 1000) + 1))
    else if (shape == "inputs") line("input 13 64 1 30 " i)
    else if (shape == "reads") { line("input 13 64 1 30 " i); call(1, "read 2") }
    else if (shape == "takes") call(1, i % 2 ? "take c1 13 64" : "release c1 13 64")
    else if (shape == "plugs" || shape == "many_devices") line(i % 2 ? "add 13 64 evdev seat0" : "remove 13 64")
    else if (shape == "locks") call(1, i % 2 ? "inhibit sleep login test block" : "close " int(i / 2))
    else if (shape == "operations") { if (i % 2) call(1, "power suspend"); else line("jobdone") }
    else if (shape == "waiting") call(1, "nothing")
    else if (shape == "properties") call(1, "get /org/freedesktop/login1/session/c1 % Name")
    else if (shape == "all_properties") call(1, "get-all /org/freedesktop/login1/session/c1 %")
    else if (shape == "settings") call(1, "set /org/freedesktop/login1/session/c1 % Name")
    else if (shape == "manager_properties") call(1, "get-all /org/freedesktop/login1 %")
    else if (shape == "pings") call(1, "ping")
    else if (shape ~ /^callers/) call(2 + i % 60, "ping")
    else if (shape ~ /_hints$/) call(1, "idle c" (1 + i % beside) " " setting(int(i / beside) + 1))
    else if (shape ~ /^next(_of_many)?$/) call(1, "next seat0")
    else if (shape ~ /^next_elsewhere/) call(1, "next seat-x")
    else if (shape == "ends") { line("connect " (i + 3) " 1001"); line("disconnect " (i + 3)) }
    else if (shape == "closings") { create(1, 0); call(1, "close " sessions); line("exit c" sessions) }
    else if (shape == "own_lock") call(2, "lock c1")
    else if (shape ~ /^((seated|elsewhere)_)?stranger(_of_many)?$/) call(3, "lock c1")
    else if (shape == "sharing_stranger") call(4, "lock c1")
    else { print "no shape " shape >"/dev/stderr"; exit 1 }
}

BEGIN { begin(); for (i = 1; made < count; i++) step(i) }
