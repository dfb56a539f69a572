"""The pages of nbdcheck-picture in chromium, where it is installed: that they load, what a screen reader finds, filter, keyboard, mouse."""

import time

from built import TOP, Room
from cases.contexts import ONE_CONTEXT
from lint.test_lint import sessions
from messages import (
    DONE, ERROR, STARTTLS, ack, begun, chunk, client_flags, cut, done, greeting, option, read, records_of, request, simple, status, text,
    told_last, write,
)
from pictures import browser
from pictures.drawn import CROSSED, HUGE, MANY, WRITTEN, long_session, page_of, run_script

# The sessions of examples/ whose pages are opened: each kind of answer, chunks, parts, a range at 2^63, none but a negotiation.
EXAMPLES = ("nbdkit-split", "nbdkit-python-parts", "nbdkit-huge-export", "nbdkit-memory-libnbd-sr", "nbdserver-not-offered",
            "raw-nbdserver-list-data", "write-read-late-order", "write-half-served", "nbdinfo-size")
# How long a page with many requests may take; the best of some times, since a machine may be busy.
SECONDS, TIMES = 2, 5
# What is drawn at most as elements of a page.
MOST = 300
# A WRITE and a READ of it, wrong; a READ that fails; a FLUSH that was not offered, which fails too.
MISREAD = [*begun(structured=True), write(1, 0, b"\xab\xcd"), simple(1), read(2, 0, 2), chunk(2, 1, bytes(8) + b"\xab\xce", DONE),
           read(3, 4, 2), chunk(3, ERROR, b"\0\0\0\5\0\0", DONE), request(9, 4, 0, 0), simple(4, error=22)]
ORDER = "1\n2\n3\n4\n"
WRONG = "READ #2, cookie 0x2, 2 bytes at 0: success"
WROTE = "WRITE #1, cookie 0x1, 2 bytes at 0: success"


def put(room, name, records, order=None, start="zero", profile=None):
    return room.put(f"{name}.html", page_of(room, records, order, start, profile).encode())


def text_of(page, selector):
    return page.ask(f"document.querySelector({selector!r}).innerText")


def rows_of(page, selector):
    """The cells of a table's rows."""
    return page.ask(f"[...document.querySelectorAll({selector + ' tbody tr'!r})]"
                    ".map((row) => [...row.cells].map((cell) => cell.innerText))")


def loads(tally, room, page):
    """Each kind of page opens without a complaint, and asks for nothing."""
    paths = {"an empty capture": put(room, "empty", []), "a start": put(room, "begun", begun(), "")}
    for name in EXAMPLES:
        capture = TOP / "examples" / f"{name}.cap"
        ended = run_script(capture, capture.with_suffix(".ord"), "--start", capture.with_suffix(".start").read_text().strip())
        paths[name] = room.put(f"{name}.html", ended.out)
    odd = "<b>&amp;'\"</script>".replace("/", "") + ".cap"
    paths["an odd name"] = room.put("odd.html", run_script(room.put(odd, text(CROSSED)), "--start", "zero").out)
    for name, path in paths.items():
        page.open(path)
        tally.want(f"{name}: complaints", page.complaints, [])
        page.complaints.clear()
        tally.holds(f"{name}: it is drawn", page.ask("document.querySelectorAll('#bars svg text').length") > 2)
    tally.want("the odd name", text_of(page, "h1"), f"Session {odd}")
    tally.want("the odd title", page.ask("document.title"), f"{odd} - nbdcheck")


def names(tally, room, page):
    """What a screen reader finds: the bars by their roles and names, the links, and the tables."""
    page.open(put(room, "misread", MISREAD, ORDER))
    tally.want("the wrong READ", page.named("button", f"Wrong byte: {WRONG}"), [f"Wrong byte: {WRONG}"])
    tally.want("the write", page.named("button", f"Expected write: {WROTE}"), [f"Expected write: {WROTE}"])
    tally.want("links", page.named("link"), ["READ #2", "WRITE #1"])
    tally.want("the answer", text_of(page, "#verdict"), "no content request 2 offset 1")
    # 132 bytes, a WRITE of 30, its reply of 16, a READ of 28, a chunk of 20 and 8 before the bytes ab ce.
    tally.want("in a sentence", text_of(page, "#link"),
               "READ #2 returned ce for offset 1, at byte 236; it should have been cd of WRITE #1, entry 1 of the order.")
    tally.want("hatched", page.ask("[...document.querySelectorAll('.bar')].filter((bar) => bar.querySelector('[fill=\"url(#hatch)\"]'))"
                                   ".map((bar) => Number(bar.dataset.request)).sort()"), [3, 4])
    tally.want("requests", rows_of(page, "#table"), [
        ["1", "WRITE", "0", "2", "133 to 162", "163", "178", "1", "success", "the write that should have been returned"],
        ["2", "READ", "0", "2", "179 to 206", "207", "236", "2", "success", "wrong byte"],
        ["3", "READ", "4", "2", "237 to 264", "265", "290", "3", "failed", ""],
        ["4", "command 9", "0", "0", "291 to 318", "319", "334", "4", "failed, improper", ""]])
    tally.want("history", rows_of(page, "#history"),
               [["1", "WRITE #1", "left", "cd", "should have been returned"], ["2", "READ #2", "returned", "ce", "wrong"]])
    tally.want("the first message", rows_of(page, "#messages")[0][:2], ["1", "1 to 18"])
    tally.want("tables", page.named("table")[1:], ["Rules of proto.md that were not kept", "Requests", "Messages of both sides"])
    shown = run_script(room.path("s.cap"), room.path("s.ord"), "--start", "zero")
    tally.want("what explain says", text_of(page, "#explained").split("\n")[0], "no content request 2 offset 1")
    tally.want("and the page again", shown.status, 0)


def several(tally, room, page):
    """READs of which in each order one has a wrong byte."""
    records = [*begun(), write(1, 0, b"\1"), write(2, 0, b"\2"), simple(1), simple(2), read(3, 0, 1), simple(3, b"\1"),
               read(4, 0, 1), simple(4, b"\2")]
    page.open(put(room, "several", records))
    tally.want("the answer of several", text_of(page, "#verdict"), "no order explains requests 3 4 at offset 0")
    tally.want("several in a sentence", text_of(page, "#link"),
               "In each order one of these has a wrong byte for offset 0: READ #3, READ #4")
    tally.want("what they did", rows_of(page, "#history"), [
        ["", "WRITE #1", "left", "01", ""], ["", "WRITE #2", "left", "02", ""], ["", "READ #3", "returned", "01", "in question"],
        ["", "READ #4", "returned", "02", "in question"]])
    tally.want("complaints", page.complaints, [])


def type_in(page, field, words):
    """Types words in a field in place of what is there, and Enter."""
    page.ask(f"document.getElementById({field!r}).focus(); document.getElementById({field!r}).value = ''")
    page.send("Input.insertText", text=words)
    page.press("Enter", "\r")


def filters(tally, room, page):
    page.open(put(room, "misread", MISREAD, ORDER))
    faint = "[...document.querySelectorAll('.bar.faint')].map((bar) => Number(bar.dataset.request)).sort()"
    for field, words, count, kept, other in (
        ("offset", "5", "1 of 4 requests", ["3"], [1, 2, 4]),
        ("offset", "0x1", "2 of 4 requests", ["1", "2"], [3, 4]),
        ("offset", "", "4 requests", ["1", "2", "3", "4"], []),
        ("numbers", "2-3", "2 of 4 requests", ["2", "3"], [1, 4]),
        ("numbers", "#4", "1 of 4 requests", ["4"], [1, 2, 3]),
        ("numbers", "9", "0 of 4 requests", [], [1, 2, 3, 4]),
    ):
        type_in(page, field, words)
        tally.want(f"{field} {words!r}: how many", text_of(page, "#count"), count)
        tally.want(f"{field} {words!r}: rows", [row[0] for row in rows_of(page, "#table")], kept)
        tally.want(f"{field} {words!r}: faint bars", page.ask(faint), other)
    for field, words, told in (
        ("offset", "x", "an offset is a number of bytes, as 39000 or 0x9858"),
        ("numbers", "abc", "requests are a number or a range that rises, as 3 or 2-9"),
        ("numbers", "9-5", "requests are a number or a range that rises, as 3 or 2-9"),
    ):
        type_in(page, "numbers", "2-3")
        type_in(page, field, words)
        tally.want(f"{field} {words!r} is told", text_of(page, "#count"), told)
        tally.want(f"{field} {words!r} is marked", page.ask(f"document.getElementById({field!r}).getAttribute('aria-invalid')"), "true")
        tally.want(f"{field} {words!r}: the filter stays", (page.ask(faint), [row[0] for row in rows_of(page, "#table")]), ([1, 4], ["2", "3"]))
        page.ask("document.getElementById('clear').click()")
    tally.want("cleared", (text_of(page, "#count"), page.ask(faint)), ("4 requests", []))
    type_in(page, "offset", "4")
    tally.want("history of another offset", rows_of(page, "#history"), [["3", "READ #3", "returned", "", ""]])
    tally.want("complaints", page.complaints, [])


def grouped(number):
    """With thousands apart, where no line breaks."""
    return f"{number:,}".replace(",", "\u202f")


def reached(page):
    return page.ask("Number((document.activeElement.dataset || {}).request || 0)")


def keyboard(tally, room, page):
    page.open(put(room, "misread", MISREAD, ORDER))
    stops = page.ask("[...document.querySelectorAll('.bar')].filter((bar) => bar.tabIndex === 0).map((bar) => bar.dataset.request)")
    tally.want("the bar that the tab key reaches", stops, ["2"])
    page.ask("document.getElementById('whole').focus()")
    page.press("Tab")
    tally.want("behind the last button", reached(page), 2)
    for key, number in (("ArrowRight", 3), ("ArrowRight", 4), ("ArrowRight", 4), ("Home", 1), ("ArrowLeft", 1), ("End", 4),
                        ("ArrowLeft", 3)):
        page.press(key)
        tally.want(f"{key} reaches", reached(page), number)
        tally.holds(f"{key} tells", f" #{number}, cookie " in text_of(page, "#detail"), text_of(page, "#detail"))
    type_in(page, "numbers", "1-2")
    page.ask("document.querySelector('[data-request=\"2\"]').focus()")
    page.press("Enter", "\r")
    tally.holds("Enter selects", "Wrong byte" in text_of(page, "#detail"), text_of(page, "#detail"))
    page.press("ArrowRight")
    tally.want("what the filter leaves", reached(page), 2)
    whole = page.ask("view.to - view.from")
    page.press("+", "+")
    tally.want("+ shows half", page.ask("view.to - view.from"), whole / 2)
    tally.want("the focus stays", reached(page), 2)
    page.press("0", "0")
    page.press("Enter", "\r")
    tally.want("0 shows all", page.ask("view.to - view.from"), whole)
    page.press("Enter", "\r")
    tally.holds("Enter behind it", " #2, cookie " in text_of(page, "#detail"), text_of(page, "#detail"))
    page.ask("document.getElementById('clear').click()")
    page.ask("document.querySelector('#table [aria-label=\"Select READ #3\"]').focus()")
    page.press(" ", " ")
    tally.holds("a row's button selects", "READ #3" in text_of(page, "#detail"), text_of(page, "#detail"))
    tally.want("complaints", page.complaints, [])


def keys_at_once(tally, room, page):
    """The keys that a page has no other use for work before anything has the focus, and none in a field."""
    page.open(put(room, "misread", MISREAD, ORDER))
    whole = page.ask("view.to - view.from")
    page.press("+", "+")
    tally.want("+ shows half", page.ask("view.to - view.from"), whole / 2)
    page.press("0", "0")
    tally.want("0 shows all", page.ask("view.to - view.from"), whole)
    page.press("Enter", "\r")
    page.press("ArrowRight")
    tally.want("ArrowRight reaches the first", reached(page), 1)
    page.ask("document.getElementById('numbers').focus()")
    page.press("ArrowRight")
    page.press("+", "+")
    tally.want("in a field they do not", (page.ask("view.selected"), page.ask("view.to - view.from")), (1, whole))
    tally.want("complaints", page.complaints, [])


def statuses(tally, room, page):
    """A BLOCK_STATUS that calls an offset zero that is not."""
    records = [*ONE_CONTEXT, write(1, 2, b"\7"), done(1), status(2, 0, 8), told_last(2, 1, (8, 2))]
    page.open(put(room, "status", records, "1\n2\n", profile="wide"))
    tally.want("the answer of a status", text_of(page, "#verdict"), "no status request 2 offset 2")
    tally.want("who wrote and called it zero", rows_of(page, "#history"), [
        ["1", "WRITE #1", "left", "07", ""], ["2", "BLOCK_STATUS #2", "called it zero", "", "in question"]])
    type_in(page, "offset", "5")
    tally.want("of another offset it is not known", rows_of(page, "#history"), [])
    tally.want("complaints", page.complaints, [])


def bounds(tally, room, page):
    """With 16 lanes what is selected stands in a window of 1280 by 900, and in a narrow one no chart passes its frame."""
    lanes = [*begun(), *(read(cookie, 8 * cookie, 8) for cookie in range(16)), *(simple(cookie, bytes(8)) for cookie in range(16))]
    page.send("Emulation.setDeviceMetricsOverride", width=1280, height=900, deviceScaleFactor=1, mobile=False)
    page.open(put(room, "lanes", lanes, "".join(f"{number}\n" for number in range(1, 17))))
    tally.want("lanes", page.ask("data.lanes"), 16)
    bottom = page.ask("document.getElementById('detail').getBoundingClientRect().bottom")
    tally.holds("what is selected is in the window", bottom <= 900, bottom)
    page.send("Emulation.setDeviceMetricsOverride", width=420, height=900, deviceScaleFactor=1, mobile=False)
    page.open(put(room, "lanes", lanes, "".join(f"{number}\n" for number in range(1, 17))))
    for chart in ("bars", "export"):
        box = f"document.querySelector('#{chart}').getBoundingClientRect().right"
        inner = f"document.querySelector('#{chart} svg').getBoundingClientRect().right"
        tally.holds(f"{chart} within its frame", page.ask(f"{inner} <= {box}"), (page.ask(inner), page.ask(box)))
    tally.want("complaints", page.complaints, [])


def outside(tally, room, page):
    """A session that is outside of the profile shows no mistake; one whose order is found and empty has an order."""
    page.open(put(room, "outside", [greeting(), client_flags(), option(STARTTLS), ack(STARTTLS)]))
    tally.holds("the answer", text_of(page, "#verdict").endswith(": OutOfProfile"), text_of(page, "#verdict"))
    button = "document.getElementById('guilty')"
    tally.want("its button", page.ask(f"[{button}.hidden, {button}.innerText, {button}.className]"), [False, "Go to where judging ends", ""])
    page.open(put(room, "misread", MISREAD, ORDER))
    tally.want("that of a mistake", page.ask(f"[{button}.hidden, {button}.innerText, {button}.className]"), [False, "Go to the mistake", "red"])
    page.open(put(room, "begun", begun()))
    tally.holds("an order was found", "an order that nbdcheck found" in text_of(page, "#facts"), text_of(page, "#facts"))
    tally.holds("and so there is one", "There is no order" not in text_of(page, "#export-hint"), text_of(page, "#export-hint"))
    tally.want("complaints", page.complaints, [])


def unmarked(tally, room, page):
    """What is no mistake has a button that is not red, and the legend names what the page shows."""
    whole = ["READ", "WRITE", "request, wait, reply", "first reply"]
    judging, capture = "Go to where judging ends", "Go to where the capture ends"
    served, red = "served: a moment that fits the order", "in question"
    open_read, image, mistake = [*begun(), read(1, 0, 4)], room.put("9", bytes(9)), "Go to the mistake"
    for name, records, order, start, legend, button in (
        ("old style", [greeting(0)], None, "zero", [red], (False, judging, "")),
        ("within the greeting", [cut(greeting(), 8)[0]], None, "zero", [red], (False, capture, "")),
        ("within a reply", [*open_read, cut(simple(1, bytes(4)), 9)[0]], None, "zero", ["READ", "request, wait", red],
         (False, capture, "")),
        ("nothing but a greeting", [greeting()], "", "zero", [], (True, judging, "")),
        ("another size", WRITTEN, "1\n2\n", f"image:{image}", [*whole, served], (True, mistake, "red")),
        ("no such request", WRITTEN, "1\n9\n2\n", "zero", [*whole, served], (True, mistake, "red")),
        ("no such request at all", WRITTEN, "9\n", "zero", whole, (True, mistake, "red")),
        ("late", WRITTEN, "2\n1\n", "zero", [*whole, served, red], (False, mistake, "red")),
        ("a context in base", [*ONE_CONTEXT, status(2, 0, 8)], "1\n", "zero", [red], (False, judging, "")),
        ("no reply", open_read, "1\n", "zero", ["READ", "request, wait", served], (True, judging, "")),
    ):
        page.open(put(room, "unmarked", records, order, start))
        found = page.ask("[...document.querySelectorAll('#legend > span')].map((part) => part.textContent)")
        tally.want(f"{name}: the legend", [part for part in found if not part.endswith(" not kept")], legend)
        it = "document.getElementById('guilty')"
        tally.want(f"{name}: the button", tuple(page.ask(f"[{it}.hidden, {it}.textContent, {it}.className]")), button)
    page.open(put(room, "cut-off", [cut(greeting(), 8)[0]]))
    tally.want("a message that is cut off", page.ask("document.querySelector('#bars svg [role=\"img\"]').getAttribute('aria-label')"),
               "Cut off: message of the server, bytes 1 to 8")
    tally.want("complaints", page.complaints, [])


def empty_order(tally, room, page):
    """An order without an entry serves nothing; without an order a change is painted from its first reply on."""
    hatched = "document.querySelectorAll('#export [fill=\"url(#hatch)\"]').length"
    # That nobody served the WRITE is wrong, and of this START there is no order.
    for order, start, front, count in (("", "zero", "A change is painted from its service on", 0),
                                       (None, f"image:{room.put('1s', bytes([1] * 8))}", "There is no order: ", 1)):
        page.open(put(room, "empty-order", WRITTEN, order, start))
        tally.holds(f"the hint, order {order!r}", text_of(page, "#export-hint").startswith(front), text_of(page, "#export-hint"))
        tally.want(f"hatched, order {order!r}", (page.ask(hatched), page.ask("changes.length")), (count, count))
    tally.want("complaints", page.complaints, [])


def entries(tally, room, page):
    """A row of the history has its own entry, where an order names a request twice, and where its parts share an offset."""
    for order, wanted in (("1\n1\n", [("1", "WRITE #1"), ("2", "WRITE #1")]),
                          ("1 0 2\n1 0 1\n2\n", [("1", "WRITE #1"), ("2", "WRITE #1"), ("3", "READ #2")])):
        page.open(put(room, "entries", WRITTEN, order))
        type_in(page, "offset", "0")
        tally.want(f"entries of {order!r}", [tuple(row[:2]) for row in rows_of(page, "#history")], wanted)
    tally.want("complaints", page.complaints, [])


def middle_of(page, selector):
    return page.ask(f"(() => {{ const box = document.querySelector({selector!r}).getBoundingClientRect();"
                    " return [box.x + box.width / 2, box.y + box.height / 2]; })()")


def mouse(tally, room, page):
    page.open(put(room, "misread", MISREAD, ORDER))
    lines = {number: "\n".join(told) for number, told in (
        (1, [f"C {WROTE} (bytes 133 to 162)", "S simple reply to WRITE #1, cookie 0x1: success (bytes 163 to 178)", "served by entry 1"]),
        (4, ["C command 9 #4, cookie 0x4: failure, EINVAL (22) (bytes 291 to 318)",
             "S simple reply to command 9 #4, cookie 0x4: EINVAL (22) (bytes 319 to 334)", "served by entry 4"]))}
    page.click(*middle_of(page, '.bar[data-request="4"]'))
    tally.want("a click on a bar", text_of(page, "#detail"), lines[4])
    page.click(*middle_of(page, "#link a:last-of-type"))
    tally.want("a click on the link", text_of(page, "#detail"), f"Expected write\n{lines[1]}")
    tally.want("the link's bar", reached(page), 1)
    left, top = page.ask("(() => { const box = document.getElementById('bars').getBoundingClientRect(); return [box.x, box.y]; })()")
    # The greeting, the first of the server's messages.
    page.click(left + page.ask("xOf(9)"), top + page.ask("SERVER_ROW + 5"))
    tally.holds("a click on a message", text_of(page, "#detail").startswith("S greeting, "), text_of(page, "#detail"))
    page.click(*middle_of(page, "#in"))
    shown = page.ask("[view.from, view.to]")
    tally.want("zoomed in at the middle", shown, [83.5, 250.5])
    # A drag by a tenth of the chart to the left shows what lies a tenth of the view further right, and selects nothing.
    before = text_of(page, "#detail")
    page.drag(left + 500, top + 90, page.ask("(GUTTER + RIGHT - view.width) / 10"))
    tally.want("dragged", [round(at, 3) for at in page.ask("[view.from, view.to]")], [100.2, 267.2])
    tally.want("a drag selects nothing", text_of(page, "#detail"), before)
    page.turn(left + 500, top + 90, 100, control=True)
    tally.want("the wheel zooms out", round(page.ask("view.to - view.from"), 3), 167 * 1.25)
    page.turn(left + 500, top + 90, 100, control=False)
    tally.want("the wheel alone does not", round(page.ask("view.to - view.from"), 3), 167 * 1.25)
    tally.want("complaints", page.complaints, [])


def many(tally, room, page):
    """100,000 requests open in two seconds, and no more is drawn than is in view."""
    order = "".join(f"{number}\n" for number in range(1, MANY + 1))
    path, times = put(room, "many", long_session(MANY), order), []
    while not times or (min(times) > SECONDS and len(times) < TIMES):
        times.append(page.open(path))
    tally.holds("seconds until it is drawn", min(times) <= SECONDS, times)
    print(f"many requests: {min(times):.2f} s until they are drawn", flush=True)
    tally.want("how many", text_of(page, "#count"), f"{grouped(MANY)} requests")
    count = "document.querySelectorAll('.bar').length"
    tally.want("of the whole session the first has a bar of its own", page.ask(count), 1)
    tally.holds("it has pixels", page.ask(
        "document.querySelector('#bars canvas').getContext('2d').getImageData(GUTTER + 20, laneTop(1) + 3, 1, 1).data[3]") == 255)
    page.ask("document.getElementById('whole').focus()")
    page.press("Tab")
    tally.want("the tab key reaches it", reached(page), 1)
    page.press("ArrowRight")
    tally.want("and the next from there", reached(page), 2)
    page.press("End")
    tally.want("and the last", reached(page), MANY)
    type_in(page, "numbers", "50001")
    page.ask("document.getElementById('clear').click()")
    bars = page.ask(count)
    tally.holds("bars in view", 0 < bars <= MOST, bars)
    tally.holds("the one that was looked for", "READ #50001, " in text_of(page, "#detail"), text_of(page, "#detail"))
    begun_at = time.monotonic()
    type_in(page, "offset", "0")
    # Of each 2^20 / 64 = 16,384 requests one is at offset 0: the numbers 16384, 32768 and so on, and no FLUSH has a range.
    wanted = [str(number) for number in range(16384, MANY + 1, 16384) if number % 4 != 3]
    tally.want("at one offset", [row[0] for row in rows_of(page, "#table")], wanted)
    tally.holds("the filter's seconds", time.monotonic() - begun_at < SECONDS * TIMES, time.monotonic() - begun_at)
    tally.want("complaints", page.complaints, [])


def refused(tally, room, page):
    """The message at which a session was refused, and the request that it replies to."""
    records = [*begun(structured=True), read(1, 0, 8), chunk(1, 1, bytes(8) + b"abcd"), done(1), read(2, 0, 8)]
    page.open(put(room, "refused", records, "1\n"))
    tally.want("the answer", text_of(page, "#verdict"), "no at byte 212: IncompleteRead")
    message = "Refused: message of the server, bytes 193 to 212"
    tally.want("the message", page.named("image", message), [message])
    request = "In question: READ #1, cookie 0x1, 8 bytes at 0: pending"
    tally.want("its request", page.named("button", request), [request])
    told = text_of(page, "#detail").split("\n")
    tally.want("in words", (told[0], told[-1]), ("In question", "refused at byte 212, IncompleteRead: bytes 193 to 212 of the server"))
    tally.holds("the place", "byte 212: IncompleteRead" in page.ask("document.querySelector('#bars svg').textContent"))
    # The READ behind it has 28 bytes.
    tally.want("what is not shown", text_of(page, "#shown"), "1 of 1 request in view; not judged: 28 bytes behind the refusal")
    tally.want("complaints", page.complaints, [])


def breaches(tally, room, page):
    """A triangle and a row for each rule that was not kept, with a button that shows the message."""
    row = next(each for each in sessions() if each["name"] == "length-0.a")
    page.open(put(room, "breaches", records_of(row["capture"].encode()), None, "unknown", "wide"))
    tally.want("breaches: tables", page.named("table")[-3:], ["Rules of proto.md that were not kept", "Requests", "Messages of both sides"])
    tally.want("breaches: rows", rows_of(page, "#breaches"), [
        ["160", "should", "client", "length-0", "request 1 (READ) has length 0", "Request types"]])
    tally.want("breaches: triangles", page.ask("[...document.querySelectorAll('#bars .breach')].map((it) => it.getAttribute('aria-label'))"),
               ["should: client: length-0: request 1 (READ) has length 0"])
    tally.holds("breaches: counted", text_of(page, "#facts").endswith("1 should not kept"), text_of(page, "#facts"))
    page.ask("document.querySelector('#breaches td button').click()")
    tally.holds("breaches: shown", "READ #1" in text_of(page, "#detail"), text_of(page, "#detail"))
    page.open(put(room, "kept", begun(), None, "unknown", "wide"))
    tally.want("breaches: none", (page.ask("document.getElementById('breaches').hidden"), page.named("table")[-2:]),
               (True, ["Requests", "Messages of both sides"]))
    tally.want("complaints", page.complaints, [])


def huge(tally, room, page):
    """A request and a part that are longer than a browser has an exact number for."""
    page.open(put(room, "huge", HUGE.records, "1 0 9223372036854775807\n2\n", HUGE.start, "wide"))
    tally.want("the huge request", rows_of(page, "#table")[0], [
        "1", "WRITE_ZEROES", "0", "9223372036854775807", "133 to 164", "165", "196", f"1 ({grouped(2**63 - 1)} bytes at 0)", "success",
        "the write that should have been returned"])
    # 132 bytes, WRITE_ZEROES, its reply and a READ of 32 each, and a chunk of 32 and 8 before the byte 01.
    tally.want("behind it in a sentence", text_of(page, "#link"), "READ #2 returned 01 for offset 9223372036854775806, at byte 269; "
               "it should have been 00 of WRITE_ZEROES #1, entry 1 of the order.")
    tally.want("complaints", page.complaints, [])


PARTS = (loads, names, refused, several, statuses, outside, unmarked, empty_order, entries, breaches, huge, filters, keyboard, keys_at_once,
         bounds, mouse, many)


def run(tally):
    if not browser.is_there():
        print("skipped: chromium", flush=True)
        return
    with Room() as room:
        for part in PARTS:
            with browser.Browser() as page:
                part(tally, room, page)
