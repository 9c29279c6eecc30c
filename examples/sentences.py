#!/usr/bin/env python3
"""Compares the sentences of the program with those of the documents and of the manual pages: sentences.py

README.md, docs/FORMATS.md and man/yp.8 list all sentences, and docs/COMMANDS.md has each command in a heading. Each
command has one page, man/yp-NAME.8, whose SYNOPSIS is its sentence, and to which man/yp.8 refers; pages and units refer
to pages that there are. These sentences have to be the same, and so do those of the code, whose words are known by the
functions that read them. What README.md, docs/COMMANDS.md, docs/ADMIN.md and the manual pages show to be typed has to
be such sentences, and so have the words of `serve` in README.md, docs/ADMIN.md and yp.env. The completion for bash has
to offer what a sentence goes on with. The statuses of docs/FORMATS.md are compared with those of man/yp.8 and of the
code, and those of docs/ADMIN.md have to be among them. The statuses of each command in docs/FORMATS.md are compared
with those of its page, and with those that the definitions of the code let it end with. Then the program is asked. It
is given words with which a sentence goes on, words with which it doesn't, and words of which the last ones are missing,
and has to tell the number of the wrong word; nothing is done then. It is given each whole sentence, too, which has to
be one: in the folder where this runs that finds or makes next to nothing.

The program has to be built. It prints what differs, and ends with status 1 where anything does.
"""

import glob
import os
import re
import shlex
import subprocess
import sys
import tempfile
from concurrent.futures import ThreadPoolExecutor

sys.dont_write_bytecode = True
import server

NAME = r"(?!\.)[!-.0-?A-~]{1,64}"
NO_TEXT = "\udcff"  # a byte that isn't UTF-8, which fits nowhere
HOST_MOST = STORE_MOST = 64


def number(least, most):
    """Whether a word is a decimal number from `least` to `most`."""
    return lambda word: re.fullmatch("0|[1-9][0-9]*", word) is not None and least <= int(word) <= most


def text(least, most):
    """Whether a word is a text of `least` to `most` bytes."""
    return lambda word: NO_TEXT not in word and least <= len(word.encode()) <= most


def one_of(*words):
    return lambda word: word in words


def shape(pattern):
    return lambda word: re.fullmatch(pattern, word, re.DOTALL) is not None


def is_address(word):
    parts = re.split("[.:]", word)
    shaped = re.fullmatch(r"[0-9]+(\.[0-9]+){3}:[0-9]+", word) is not None
    return shaped and all(map(number(0, 255), parts[:4])) and number(1, 65535)(parts[4])


def is_most(word):
    return word == "forever" or number(0, 4294967295)(word)


def is_pair(word):
    key, mark, value = word.partition("=")
    return mark == "=" and text(1, 65536)(key) and text(0, 65536)(value)


def is_host(word):
    name, _, address = word.partition("@")
    return shape(NAME)(name) and is_address(address)


KINDS = r"passwd\.by(name|uid)|group\.by(name|gid)|hosts\.by(name|addr)|services\.byname|protocols\.bynumber"
KINDS += "|netgroup|ypservers"

# Each form of word: whether a word has it, one that has it and may be run, and others that are close to it.
FORMS = {
    "Name": (shape(NAME), "n1", [".n", "n/m", "n@m", "n" * 64, "n" * 65, "lab/netgroup", ""]),
    "Store": (shape(f"{NAME}/{NAME}"), "lab/m", ["lab", "lab/", "lab/m/m"]),
    "KindStore": (shape(f"{NAME}/({KINDS})"), "lab/hosts.byname", ["lab/m", "hosts.byname"]),
    "ReverseStore": (shape(NAME + r"/netgroup\.by(user|host)"), "lab/netgroup.byuser", ["lab/netgroup"]),
    "Pair": (is_pair, "k=v", ["k", "=v", "k=" + "v" * 65537]),
    "Number": (number(0, 4294967295), "0", ["01", "+1", "4294967295", "4294967296"]),
    "Most": (is_most, "0", ["forever", "for ever", "01", "4294967295", "4294967296"]),
    "Port": (number(1, 65535), "1", ["0", "65535", "65536"]),
    "Window": (number(1, 4096), "1", ["0", "4096", "4097"]),
    "Workers": (number(1, 8), "1", ["0", "8", "9"]),
    "Policy": (one_of("fixed", "ypsetme", "ypset"), "fixed", ["ypsetme", "ypset", "yp"]),
    "Address": (is_address, "127.0.0.1:1", ["127.0.0.1", "127.0.0.1:0", "127.0.0.256:1", "127.0.0.01:1"]),
    "Text": (text(1, 64), "t", ["", "t" * 64, "t" * 65]),
    "Key": (text(0, 65536), "*", ["", "k" * 65536, "k" * 65537]),
    "Flag": (one_of("secure", "plain"), "secure", ["plain", "open"]),
    "Mode": (one_of("newer", "force"), "newer", ["force", "older"]),
    "Host": (is_host, "h@127.0.0.1:1", ["h", "h@127.0.0.1", "@127.0.0.1:1"]),
}

# The form of each word of the documents, and of those that have another one behind some commands.
WORDS = {"STORE": "Store", "NAME": "Name", "PORT": "Port", "WORKERS": "Workers", "WINDOW": "Window", "ADDR": "Address"}
WORDS |= {"FLAG": "Flag", "MODE": "Mode", "POLICY": "Policy", "HOST": "Host", "DOMAIN": "Text", "MAP": "Text"}
WORDS |= {"NUMBER": "Port"}
WORDS |= dict.fromkeys(["START", "N", "PROG", "VERS", "PROT"], "Number") | {"CONNECTIONS": "Most", "TURNS": "Most"}
WORDS |= dict.fromkeys(["KEY", "GROUP", "USER", "NISDOMAIN"], "Key")
BEHIND = {("build", "STORE"): "KindStore", ("revnet", "STORE"): "ReverseStore", ("innetgr", "HOST"): "Key"}
BEHIND |= {("pull", "NAME"): "Text"}
COMPARED = "[ADDR]*"
FURTHER = {"[KEY=VALUE]*": "Each(Pair)", "[HOST]*": "Each(Host)", "[STORE or HOST]*": "StoresAndHosts"}
# A word that may stand behind all others.
LAST = "log"
# The commands that call a port mapper, which are one meaning in the code.
MAPPER = {"getport", "setport", "unsetport"}

# The form that a function of the code reads a word by, and the further words.
READ = {"name": "Name", "store": "Store", "kind_store": "KindStore", "reverse_store": "ReverseStore", "number": "Number"}
READ |= {"most": "Most", "port": "Port", "window": "Window", "workers": "Workers", "policy": "Policy", "address": "Address"}
READ |= {"host": "Host", "text": "Text", "key": "Key", "member": "Key", "mode": "Mode"}
READ_FURTHER = {"each_pair": "Each(Pair)", "each_host": "Each(Host)", "stores_and_hosts": "StoresAndHosts"}
READ_FURTHER |= {"servers": "Servers", "peers_and_domain": "Compared"}

differences = []


def tell(difference):
    differences.append(difference)


def read(path):
    with open(os.path.join(server.TOP, path), encoding="utf-8") as file:
        return file.read()


def between(source, begin, end):
    """What stands between two texts, of which the first is there."""
    return source.partition(begin)[2].partition(end)[0]


# The sentences, as the documents write them.


def section(path, name):
    """A section of a manual page, where a line that ends in a backslash goes on with the next."""
    return between(read(path), f"\n.Sh {name}\n", "\n.Sh ").replace("\\\n", "") + "\n"


def page_sentences(path):
    """The sentences of a page's SYNOPSIS, as README.md writes them."""
    for line in re.findall(r"^\.Nm yp Cm (.*)$", section(path, "SYNOPSIS"), re.MULTILINE):
        line = re.sub(r" Op Ar (.*?)( \.\.\.)?$", lambda m: f" [{m[1]}]" + "*" * bool(m[2]), line)
        line = re.sub(r" Oo Ar (.*?) \.\.\. Oc", r" [\1]*", line)
        line = line.replace(" Op Cm log", " [log]")
        yield line.replace(" | ", " or ").replace(" Ar ", " ")


def listings():
    """Where sentences are listed, with them."""
    yield "README.md", re.findall(r"^\| `yp (.*?)` \|", read("README.md"), re.MULTILINE)
    block = between(read("docs/FORMATS.md"), "\n## Words\n", "\n| ")
    yield "docs/FORMATS.md", re.findall(r"^    (.*)$", block, re.MULTILINE)
    yield "man/yp.8", list(page_sentences("man/yp.8"))


def same_listings():
    """The sentences that all listings have, where these have the same."""
    listed = list(listings())
    wanted = listed[0][1]
    for place, sentences in listed:
        for sentence in sorted(set(sentences) ^ set(wanted)):
            there, lacking = (place, listed[0][0]) if sentence in sentences else (listed[0][0], place)
            tell(f"`{sentence}` stands in {there}, and not in {lacking}")
        for sentence in sorted({s for s in sentences if sentences.count(s) > 1}):
            tell(f"`{sentence}` stands in {place} more than once")
    every = list(dict.fromkeys(sentence for _, sentences in listed for sentence in sentences))
    headings = re.findall(r"^## (`.*)$", read("docs/COMMANDS.md"), re.MULTILINE)
    described = {command for heading in headings for command in re.findall("`(.*?)`", heading)}
    for command in sorted(described ^ {sentence.split()[0] for sentence in every}):
        tell(f"{command} is a command of docs/COMMANDS.md alone, or of the other documents alone")
    return every


# The manual pages, one for each command.


def files(pattern):
    """The files of this pattern."""
    return sorted(os.path.relpath(path, server.TOP) for path in glob.glob(os.path.join(server.TOP, pattern)))


def references():
    """What pages and units refer to: each file, with the names and sections of this program's pages there."""
    for path in files("man/*.[578]"):
        yield path, re.findall(r"\bXr (yp(?:-\S+)? \d)", read(path))
    for path in files("site/systemd/*"):
        yield path, [f"{name} {part}" for name, part in re.findall(r"\b(yp[a-z-]*)\((\d)\)", read(path))]


def same_pages(sentences):
    """Tells where a command hasn't one page with its sentence, and what refers to a page that isn't there."""
    pages = {re.sub(r"man/(.*)\.(\d)", r"\1 \2", path) for path in files("man/*.[578]")}
    wanted = {f"yp-{sentence.split()[0]} 8": sentence for sentence in sentences}
    for page in sorted(pages ^ {"yp 8", "yp-file 5", "yp-protocol 7", *wanted}):
        tell(f"the manual page {page} is {'that of no command' if page in pages else 'missing'}")
    for page in sorted(pages & set(wanted)):
        name = page.removesuffix(" 8")
        path = f"man/{name}.8"
        if list(page_sentences(path)) != [wanted[page]]:
            tell(f"the SYNOPSIS of {path} isn't `{wanted[page]}` alone")
        if f"\n.Dt {name.upper()} 8\n.Os\n.Sh NAME\n.Nm {name}\n.Nd " not in read(path):
            tell(f"the head of {path} isn't that of {name}")
    for path, named in references():
        for page in sorted(set(named) - pages):
            tell(f"{path} refers to {page}, which is no page")
        for page in sorted(pages - {"yp 8", *named} if path == "man/yp.8" else ()):
            tell(f"man/yp.8 doesn't refer to {page}")


# A sentence by its forms: its command, the forms of the words behind that, and what may stand behind these.


def by_forms(sentence):
    """The sentences by their forms that one stands for: two where it has a word that may be left out."""
    command, *words = re.findall(r"\[.*?\]\*?|[^ ]+", sentence)
    has_last = words[-1:] == [f"[{LAST}]"]
    if has_last:
        words.pop()
    further = FURTHER.get(words[-1], "NoMore") if words else "NoMore"
    if further != "NoMore":
        words.pop()
    if further == "Each(Host)" and words[-1:] == ["HOST"]:
        words.pop()
        further = "Servers"
    if COMPARED in words:
        # One server, or more of them, before the last word.
        words.remove(COMPARED)
        yield command, tuple(WORDS[word] for word in words), "NoMore"
        words.insert(1, words[0])
        further = "Compared"
    last = [words.pop().strip("[]")] if words and words[-1].startswith("[") else []
    if has_last:
        further += "AndLast"
    for each in [words, words + last] if last else [words]:
        yield command, tuple(BEHIND.get((command, word)) or WORDS.get(word, word) for word in each), further


def of_code():
    """The sentences of the code, by forms, as the functions that read them do."""
    source = read("crates/yp_command/src/words.rt")
    readers = dict(re.findall(r'^        "(\w+)" => (\w+)\(', between(source, "\nfn read(", "\n}\n"), re.MULTILINE))
    for command, reader in readers.items():
        body = between(source, f"\nfn {reader}(", "\n}\n")
        read_by = re.findall(r"words\.(\w+)\((\d+)\)", body)
        forms = [READ.get(form, form) for form, _ in read_by if form not in ("end", "flag_if_any")]
        if [int(at) for _, at in read_by] != list(range(1, len(read_by) + 1)):
            tell(f"the code reads the words of {command} by other numbers than their own")
        further = re.search("= (each_pair|each_host|stores_and_hosts|servers|peers_and_domain)\\(", body)
        ends = READ_FURTHER[further[1]] if further else "NoMore"
        if "words.but_log()" in body:
            ends += "AndLast"
        if ends == "Servers":
            forms.pop()
        if ends == "Compared":
            yield command, tuple(forms), "NoMore"
            forms.insert(1, forms[0])
        yield command, tuple(forms), ends
        if any(form == "flag_if_any" for form, _ in read_by):
            yield command, (*forms, "Flag"), ends


def same_table(sentences):
    """Tells where the sentences of the code aren't those of the documents."""
    documents = {each for sentence in sentences for each in by_forms(sentence)}
    code = set(of_code())
    for command, forms, further in sorted(documents ^ code):
        where = "the documents" if (command, forms, further) in documents else "the code"
        tell(f"{command} with the forms {', '.join(forms)} and {further} is a sentence of {where} alone")
    return sorted(each for each in documents if set(each[1]) <= set(FORMS))


# What the documents' sentences say of words.


def joins(further, earlier, before, word):
    """Whether a word may stand as a further one behind others, the last of which is that before it."""
    if further == "Compared":
        return is_address(before) and FORMS["Text"][0](word)
    if further in ("Each(Pair)", "Each(Host)"):
        return FORMS[further[5:-1]][0](word)
    addresses = [host.partition("@")[2] for host in earlier]
    if further == "Servers":
        return is_host(word) and len(earlier) < HOST_MOST and word.partition("@")[2] not in addresses
    if further == "StoresAndHosts":
        stores = [each for each in earlier if "/" in each]
        return is_host(word) or FORMS["Store"][0](word) and word not in stores and len(stores) < STORE_MOST
    return False


def fitting(sentence, words):
    """How many words at the front are as the sentence has them."""
    command, forms, further = sentence
    checks = [one_of(command)] + [FORMS[form][0] for form in forms]
    for at, check in enumerate(checks):
        if at == len(words) or not check(words[at]):
            return at
    at = len(checks)
    each = further.removesuffix("AndLast")
    while at < len(words) and joins(each, words[len(checks):at], words[at - 1], words[at]):
        at += 1
    if each != further and words[at:] == [LAST]:
        at += any("/" in word for word in words[len(checks):at])
    return at


def is_whole(sentence, words):
    """Whether words that fit are all that the sentence wants."""
    behind = words[1 + len(sentence[1]):]
    enough = {"StoresAndHosts": any("/" in word for word in behind), "Servers": bool(behind)}
    return fitting(sentence, words) == len(words) > len(sentence[1]) and enough.get(sentence[2].removesuffix("AndLast"), True)


def further_words(sentence):
    """Words that may stand behind those of the sentence."""
    hosts = ["h@127.0.0.1:1", "g@127.0.0.1:2"]
    return {"NoMore": [], "Compared": [], "Each(Pair)": ["k=v", "k=w"], "Each(Host)": hosts, "Servers": hosts}.get(
        sentence[2], ["lab/m", "h@127.0.0.1:1", "lab/n"] + [LAST] * sentence[2].endswith("AndLast"))


# What is shown to be typed.


def shown_texts():
    """Each text with commands that a document shows, with the name of the document."""
    for path in ("README.md", "docs/COMMANDS.md", "docs/ADMIN.md"):
        source = read(path)
        spans = re.findall(r"^```sh.*?\n(.*?)^```$", source, re.MULTILINE | re.DOTALL)
        source = re.sub(r"^```.*?^```$", "", source, flags=re.MULTILINE | re.DOTALL)
        spans += re.findall(r"^ {4,}(.*)$", source, re.MULTILINE)
        spans += re.findall(r"`([^`\n]+)`", re.sub(r"^ {4,}.*$", "", source, flags=re.MULTILINE))
        yield from ((path, span) for span in spans)
    for page in sorted(glob.glob(os.path.join(server.TOP, "man/*.8"))):
        name = os.path.relpath(page, server.TOP)
        shown = re.findall(r"^\.Dl (.*)$", read(name), re.MULTILINE)
        shown += re.findall(r"^\.Bd -literal.*?\n(.*?)^\.Ed$", read(name), re.MULTILINE | re.DOTALL)
        yield from ((name, re.sub(r"\\e$", r"\\", text, flags=re.MULTILINE)) for text in shown)


def typed(text):
    """The words of each command of the program in a text that is typed."""
    text = re.sub(r"\\\n\s*", " ", text)
    for found in re.finditer(r"(?:^|[\s(/])yp ([a-z](?:\"[^\"]*\"|'[^']*'|[^|<>&;()\"'\n])*)", text):
        words = shlex.split(re.sub(r"\$\{?map[%.*]*\}?", "hosts.byname", found[1]))
        yield [word for word in words if word != "#"]


def may_be_typed(words, sentences, written):
    """Whether words are a sentence, or name one: by its command, or as the documents write it."""
    named = {sentence.split()[0] for sentence in written}
    form = " ".join(words)
    return (
        any(is_whole(sentence, words) for sentence in sentences)
        or len(words) == 1 and words[0] in named
        or any(form in (sentence, re.sub(r" \[.*", "", sentence)) for sentence in written)
        or words[0] == "build" and words[1:] == ["NAME", "DOMAIN/ypservers"]
    )


def same_typed(sentences, written):
    """Tells what is shown to be typed, and is no sentence."""
    for place, text in shown_texts():
        for words in typed(text):
            if words and not may_be_typed(words, sentences, written):
                tell(f"`yp {' '.join(words)}` of {place} is no sentence of the documents")
    for place in ("README.md", "docs/ADMIN.md", "site/systemd/yp.env"):
        given = re.findall(r'\bYP_SERVE="(.*?)"', read(place), re.DOTALL)
        if not given:
            tell(f"{place} has no words of serve")
        for words in given:
            if not any(is_whole(sentence, ["serve", *words.split()]) for sentence in sentences):
                tell(f"`serve {words}` of {place} is no sentence of the documents")


# What the completion offers.

OFFERS = """
. "$0"
offer() {
    COMP_WORDS=(yp "$@") COMP_CWORD=$# COMPREPLY=()
    _yp
    printf '%s\\n' "${COMPREPLY[@]}" ''
}
"""
ALTERNATIVES = {"Flag": "secure plain", "Mode": "newer force", "Policy": "fixed ypsetme ypset"}
ALTERNATIVES |= {"ReverseStore": "lab/netgroup.byuser lab/netgroup.byhost"}


def offered(asked):
    """What the completion offers behind each of these lists of words, the last of which is begun, where no map is."""
    script = OFFERS + "".join(f"offer {shlex.join(words)}\necho .\n" for words in asked)
    completion = os.path.join(server.TOP, "site/completion/yp")
    command = ["bash", "--norc", "-c", script, completion]
    with tempfile.TemporaryDirectory() as empty:
        said = subprocess.run(command, cwd=empty, capture_output=True, encoding="utf-8", check=True).stdout
    return [set(part.split()) for part in said.split(".\n")[:-1]]


def same_completion(sentences):
    """Tells where the completion doesn't offer what a sentence goes on with."""
    kinds = re.sub(r"(\w+\\.by)\((.*?)\|(.*?)\)", r"\1\2|\1\3", KINDS).replace("\\", "").split("|")
    wanted = {("",): {sentence[0] for sentence in sentences}}
    for command, forms, further in sentences:
        words = [command] + [FORMS[form][1] for form in forms]
        for at, form in enumerate(forms, 1):
            begun = "lab/" if form in ("KindStore", "ReverseStore") else ""
            ends = {f"lab/{kind}" for kind in kinds} if form == "KindStore" else set(ALTERNATIVES.get(form, "").split())
            # Behind the last word of a shorter sentence a longer one may go on.
            wanted.setdefault((*words[:at], begun), set()).update(ends)
    for (words, ends), found in zip(wanted.items(), offered(wanted)):
        if found != ends:
            tell(f"behind `yp {' '.join(words)}` the completion offers {sorted(found)}, and not {sorted(ends)}")


# What the program says of them.


def run(words):
    """The status with which the program ends for words, without input, and its note."""
    words = [os.fsencode(word) for word in words]
    ended = subprocess.run([server.PROGRAM, *words], stdin=subprocess.DEVNULL, capture_output=True)
    return ended.returncode, ended.stderr


def shown(words):
    words = [word if len(word) < 70 else f"{word[:4]}.. of {len(word)}" for word in words]
    return " ".join(words).replace(NO_TEXT, "\\xff")


def probes(sentences, commands):
    """Words that are no sentence. The last one fits nowhere, unless words are missing."""
    # What has one of the forms that are left out is a word of another form, too.
    every = [good for form, (_, good, _) in FORMS.items() if form not in ("Store", "Number", "Most", "Text", "Key")]
    for command in commands:
        yield [command, NO_TEXT]
    for sentence in sentences:
        words = [sentence[0]] + [FORMS[form][1] for form in sentence[1]]
        whole = words + further_words(sentence)
        yield whole + [NO_TEXT]
        for at, form in enumerate(sentence[1], 1):
            for word in FORMS[form][2]:
                yield words[:at] + [word, NO_TEXT]
        for end in (words, whole) if whole != words else (words,):
            for word in [*every, *end[len(words):]]:
                yield end + [word, NO_TEXT]
        for length in range(len(whole)):
            if not any(is_whole(each, whole[:length]) for each in sentences):
                yield whole[:length]


def asks(sentences):
    """Tells where the program says another thing of words than the sentences."""
    commands = sorted({sentence[0] for sentence in sentences} | {sentence[0] for sentence in of_code()})

    def refuse(words):
        wrong = max(fitting(sentence, words) for sentence in sentences)
        status, note = run(words)
        if (status, note) != (2, b"yp: usage at word %d\n" % wrong):
            return f"`yp {shown(words)}` has status {status} and {note}, and word {wrong} is wrong by the documents"

    def accept(sentence):
        forms = dict.fromkeys(FORMS, "") | {form: good for form, (_, good, _) in FORMS.items()}
        forms["Port"] = str(server.free_port())
        words = [sentence[0]] + [forms[form] for form in sentence[1]] + further_words(sentence)
        status, note = run(words)
        if status == 2:
            return f"`yp {shown(words)}` is no sentence of the program: {note}"

    with ThreadPoolExecutor(4) as pool:
        found = [*pool.map(refuse, {tuple(words): words for words in probes(sentences, commands)}.values())]
        found += pool.map(accept, sentences)
    for difference in filter(None, found):
        tell(difference)


# The statuses.


def same_statuses():
    """The number of each status, where the documents, the page and the code have the same."""
    table = between(read("docs/FORMATS.md"), "\n## Statuses\n", "\n\nThe line ends")
    rows = re.findall(r"^\| (\d+) \| (\w+) \| .* \| (.*) \|$", table, re.MULTILINE)
    documents = {(code, line) for code, _, notes in rows for line in re.findall("`(.*?)`", notes) or [""]}
    items = section("man/yp.8", "EXIT STATUS")
    page = set(re.findall(r'^\.It (\d+)(?: Ql "(.*)")?$', items, re.MULTILINE))
    for code, line in sorted(documents ^ page):
        tell(f"status {code} {line} is one of {'docs/FORMATS.md' if (code, line) in documents else 'man/yp.8'} alone")
    for line, code in re.findall(r"^\| `(yp: .*?)` \| (\d+) \|", read("docs/ADMIN.md"), re.MULTILINE):
        if (code, line) not in documents:
            tell(f"status {code} {line} of docs/ADMIN.md is none of docs/FORMATS.md")
    told = between(read("crates/yp_command/src/office/status.rt"), "pub fn code", "pub fn ")
    code = set(re.findall(r"Status::(\w+).*? => (\d+),", told))
    for name, number in sorted(code ^ {(name, number) for number, name, _ in rows}):
        tell(f"status {number} {name} is one of the code alone, or of docs/FORMATS.md alone")
    return {name: int(number) for name, number in code}


def of_commands():
    """The statuses of each command, as docs/FORMATS.md has them."""
    table = between(read("docs/FORMATS.md"), "\nA command ends with one of these statuses alone:\n\n", "\n\n")
    for names, numbers in re.findall(r"^\| (`.*`) \| ([0-9, ]+) \|$", table, re.MULTILINE):
        yield from ((name, {int(number) for number in numbers.split(", ")}) for name in re.findall("`(.*?)`", names))


def may_end(path, table):
    """The names of the statuses for which a table of the code's definitions is true."""
    source = read(path)
    found = re.search(rf"^use Rattle\.(\w+)\.specs\.([\w.]+)\.\{{[^}}]*\b{table}\b", source, re.MULTILINE)
    if found:
        return may_end(f"crates/{found[1]}/specs/{found[2].replace('.', '/')}.antt", table)
    statuses = set(re.findall(rf"^{table} \(?(\w+)\b.* = true$", source, re.MULTILINE))
    others = re.search(rf"^{table} status = (\w+) status$", source, re.MULTILINE)
    return statuses | may_end(path, others[1]) if others else statuses


def by_tables(names):
    """The tables of the code's definitions, with the commands that end with a status of each."""
    commands = "crates/yp_program/specs/Commands.antt"
    tables = {}
    for meaning, table in re.findall(r"^may_end \((\w+) .*\) status = (\w+) status$", read(commands), re.MULTILINE):
        named = MAPPER if meaning == "CallMapper" else {meaning.lower()} & names
        tables.setdefault(table, set()).update(named)
    # Client commands are one meaning, and share a table.
    tables["ask_may_end"] |= names.difference(*tables.values())
    return [(may_end(commands, table), named) for table, named in tables.items()]


def same_command_statuses(sentences, numbers):
    """Tells where a command has other statuses in its page, or in the code, than in docs/FORMATS.md."""
    listed = list(of_commands())
    documents = dict(listed)
    names = {sentence.split()[0] for sentence in sentences}
    once = {name for name, _ in listed if [each for each, _ in listed].count(name) == 1}
    for name in sorted(names ^ once):
        tell(f"the statuses of {name} don't stand once in docs/FORMATS.md")
    for name, statuses in listed:
        path = f"man/yp-{name}.8"
        if path not in files("man/*"):
            continue
        items = re.findall(r"^\.It (\d+(?: , \d+)*)$", section(path, "EXIT STATUS"), re.MULTILINE)
        page = sorted(int(number) for item in items for number in item.split(" , "))
        if page != sorted(statuses):
            tell(f"{path} has the statuses {page}, and docs/FORMATS.md {sorted(statuses)}")
    for statuses, named in by_tables(names):
        code = {numbers["Usage"]} | {numbers[status] for status in statuses}
        together = set().union(*(documents.get(name, ()) for name in named))
        for number in sorted(code ^ together):
            where = "the code" if number in code else "docs/FORMATS.md"
            tell(f"status {number} of {', '.join(sorted(named))} is one of {where} alone")


written = same_listings()
same_pages(written)
sentences = same_table(written)
same_typed(sentences, written)
same_completion(sentences)
same_command_statuses(written, same_statuses())
if os.path.exists(server.PROGRAM):
    asks(sentences)
else:
    tell("the program isn't built, and wasn't asked")
print("\n".join(differences), end="\n" * bool(differences))
sys.exit(bool(differences))
