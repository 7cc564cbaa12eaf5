#!/usr/bin/env python3
"""Runs a script or recovers an image, and says in words why it is refused, where it is.

    explain.py [--program PATH] SCRIPT
    explain.py [--program PATH] --fifo SCRIPT_OF_A_QUEUE
    explain.py [--program PATH] --pool SCRIPT_OF_CLIENTS_THAT_SHARE_CALLERS
    explain.py [--program PATH] --image IMAGE_TEXT
    explain.py --status NUMBER

The program is the one given, or the one that tools/build takes. What it refuses is shown with its line, the column, which
counts characters from 1, and the row of the grammar of docs/FORMATS.md that it breaks. Of an image that does not pass a check it is
said at which word, what was found there, and what was wanted. The last form says what a status of the program means. It takes a second; of an image
of the largest size, some ten.

Example: explain.py examples/two_shops.script
Status 0 where the script or the image is accepted, 1 where it is refused, 2 where the program could not be run or ended for another cause.
"""
import re
import subprocess
import sys
import unicodedata
from pathlib import Path

from commands import HOW_TO_BUILD, built, helped
from image_text import BadImage, place_of, read_image, recovered
from queue_text import read_queue_script
from script_text import LARGEST_INPUT, Refusal, TooLong, raw_lines, read_pool_script, read_script, words_of

SHOWN = 72
REFUSAL = re.compile(rb"refused line ([1-9][0-9]{0,8}): ([a-z0-9]+)\n")
REFUSED_IMAGE = re.compile(rb"image refused: ([a-z]+[ 0-9]*)\n")

LINES_ROW = "lines L            L is 64 to 16384; the first line that is not passed over, and nowhere else"
POOL_LIFE_ROW = "life N power C     N is 1 to 64, C at most 2^64 - 1; one line at most, after the lines line"
LIFE_ROW = "life N power C     N is 1 to 8, C at most 2^64 - 1; begins a life, after the lines line"
CUT_ROW = "cut K S            K is below N, S at most 2^64 - 1; in a life, one for each client"
COMMAND_ROWS = {
    "put": "K put KEY JSON     JSON is the rest of the line",
    "putif": "K putif KEY REV JSON  REV is at most 2^64 - 1, JSON the rest of the line",
    "del": "K del KEY",
    "add": "K add KEY INTEGER  an integer within 64 bits, without leading zeros",
    "get": "K get KEY",
    "rev": "K rev KEY",
    "next": "K next KEY         or K next, for the least key of all",
    "count": "K count",
}
QUEUE_ROWS = {
    "push": "K push TEXT        one word",
    "pop": "K pop",
    "peek": "K peek",
    "len": "K len",
}
KEY_RULE = "KEY                1 to 64 bytes, each 0x21 to 0x7E"
TEXT_RULE = "TEXT               1 to 56 bytes, each 0x21 to 0x7E"
CLIENT_RULE = "K                  a client of the life: a number below its N"
COMMANDS_RULE = "a script           has at most 1,000 lives and 100,000 commands"
JSON_RULE = "JSON               a value as JSON has it, nested at most 127 deep"
NUMBER_RULE = "JSON               each number in it is an integer of 64 bits, with a sign or without; -0 is not allowed"
LENGTH_RULE = "JSON               its compact text, without spaces between its parts, has at most 1,024 bytes"
IMAGE_ROW = "image N L W        N is 1 to 8, L is 64 to 16384, W at most 2^64 - 1; the first line"
ROOT_ROW = "root CODE          at most 2^64 - 1; the second line"
WORD_ROW = "AT V               AT is below W and above the AT of the line before, V is 1 to 2^64 - 1; each further line"

SENTENCES = {
    "utf8": "The line is not UTF-8: the marked byte cannot stand there. Only empty lines and comments may have any bytes.",
    "header": "A script begins with its lines line, and this is not one.",
    "life": "A life line must stand here, and this is not one.",
    "lives": "This would be the 1,001st life.",
    "cut": "This is not a cut line for a client of the life that has none yet.",
    "client": "The line does not begin with a client of this life.",
    "commands": "This would be the 100,001st command.",
    "command": "This is not a command, or a command with too few or too many words. Words are separated by exactly one space.",
    "key": "The key is empty, longer than 64 bytes, or has a byte that a key may not have.",
    "number": "This is not an integer within 64 bits, or not a revision. Neither has a plus sign or leading zeros, -0 is neither, and a revision has no sign.",
    "json": "The document is not JSON from the marked place on.",
    "fraction": "A number of the document is not an integer within 64 bits. Fractions, exponents and -0 are not accepted.",
    "long": "The document's compact text has more than 1,024 bytes.",
    "text": "The text is empty, longer than 56 bytes, or has a byte that a text may not have.",
    "image": "An image text begins with its image line, and this is not one.",
    "root": "The second line of an image text is its root line, and this is not one.",
    "word": "This is not the line of a word other than 0. There are no comments, no empty lines, and addresses rise.",
}
CHECKS = {
    "size": "The image has another number of words than 2N regions.",
    "root": "The root names a place beyond the last one.",
    "version": "The object part of the region that the root names has another version, or is not an object part.",
    "place": "The region that the root names is at another place than the root says.",
    "body": "The region that the root names holds no lawful results, or no lawful store.",
}
UNKNOWN = "docs/FORMATS.md, as this tool knows it, has no such reason."
OTHER_ENDS = {
    2: "the program knows no such word: it is another one",
    4: "the program could not read its input",
    5: "the program could not write its report",
    6: "the program had too little memory",
    7: "the image is refused",
    8: f"refused: the input has more than {LARGEST_INPUT:,} bytes",
}


# the bounds of the number behind the first word of a line, and what it counts
BOUNDS = {
    ("header", "lines"): (64, 16_384, "a lines line"),
    ("life", "life"): (1, 8, "a life line"),
}
POOL_BOUNDS = {**BOUNDS, ("life", "life"): (1, 64, "a life line")}
# the section of docs/FORMATS.md that says how a text is read
SECTIONS = {read_script: "The script", read_pool_script: "Clients that share callers", read_queue_script: "A bounded queue of texts", read_image: "The image text"}


def rows_of(reason, line, command_rows=COMMAND_ROWS):
    """The rows of the grammar that a line breaks which is refused for this reason."""
    words = words_of(line)
    kind = words[1].text if len(words) > 1 else ""
    command = [command_rows[kind]] if kind in command_rows else list(command_rows.values())
    return {
        "utf8": ["a line             that is not passed over is UTF-8"],
        "header": [LINES_ROW],
        "life": [LIFE_ROW],
        "lives": [LIFE_ROW, COMMANDS_RULE],
        "cut": [CUT_ROW],
        "client": [CLIENT_RULE],
        "commands": [COMMANDS_RULE],
        "command": command,
        "key": command + [KEY_RULE],
        "text": command + [TEXT_RULE],
        "number": command,
        "json": command + [JSON_RULE],
        "fraction": command + [NUMBER_RULE],
        "long": command + [LENGTH_RULE],
        "image": [IMAGE_ROW],
        "root": [ROOT_ROW],
        "word": [WORD_ROW],
    }.get(reason, [])


def out_of_bounds(reason, line, bounds=BOUNDS):
    """Which number of a line is below or above what it may be, in words; an empty text where none is."""
    found = re.fullmatch(r"([a-z]+) ([0-9]+)(?: power [0-9]+)?", line)
    if found is None or (reason, found[1]) not in bounds:
        return ""
    least, most, what = bounds[reason, found[1]]
    number = int(found[2])
    if number < least:
        return f"{number} is below {least}, the least that {what} may have."
    return f"{number} is above {most}, the most that {what} may have." if number > most else ""


def explanation(path, data, number, reason, read=read_script):
    """What is said of a script, or an image text, that was refused at this line for this reason."""
    raw = (raw_lines(data) + [b""])[number - 1]
    start, end, agreed = place_of_fault(data, number, reason, read)
    line, start, end = shown_line(raw, reason, start, end)
    place = f"{path}, line {number}, column {start + 1}: {reason}"
    outside = out_of_bounds(reason, line, POOL_BOUNDS if read is read_pool_script else BOUNDS)
    parts = [place, "", *with_caret(line, number, start, end), "", SENTENCES.get(reason, UNKNOWN), *([outside] if outside else []), ""]
    parts.append(f"By the grammar (docs/FORMATS.md, {SECTIONS[read]}):")
    command_rows = QUEUE_ROWS if read is read_queue_script else COMMAND_ROWS
    rows = rows_of(reason, raw.decode("utf-8", "replace"), command_rows)
    parts.extend("  " + (POOL_LIFE_ROW if row == LIFE_ROW and read is read_pool_script else row) for row in rows)
    if not agreed:
        parts.append("")
        parts.append("The place is a guess: read by docs/FORMATS.md alone, the script has another first fault, or none.")
    return "\n".join(parts)


def place_of_fault(data, number, reason, read):
    """Where in the line the fault shows, and whether this reader finds the same fault as the program."""
    whole = len((raw_lines(data) + [b""])[number - 1].decode("utf-8", "replace"))
    try:
        read(data)
    except Refusal as refusal:
        if (refusal.line, refusal.reason) == (number, reason):
            return refusal.start, refusal.end, True
        if refusal.line <= number:
            return 0, whole, False
    except TooLong:
        return 0, whole, False
    return 0, whole, False


def shown_line(raw, reason, start, end):
    """The line's text, with the place counted in its characters; for `utf8` it was counted in bytes."""
    if reason != "utf8":
        return raw.decode("utf-8", "replace"), start, end
    front = raw[:start].decode("utf-8")
    return front + "\ufffd" + raw[end:].decode("utf-8", "replace"), len(front), len(front) + 1


def with_caret(line, number, start, end):
    """The line as far as it is shown, and carets below the place."""
    first = max(0, min(start - SHOWN // 2, len(line) - SHOWN))
    last = min(len(line), first + SHOWN)
    front, rear = ("..." if first else ""), ("..." if last < len(line) else "")
    shown = front + "".join(map(printed, line[first:last])) + rear
    before = len(front) + sum(map(width, line[first:start]))
    marked = max(1, sum(map(width, line[start : min(end, last)])))
    margin = f"  {number} | "
    return [margin + shown, " " * (len(margin) - 2) + "| " + " " * before + "^" * marked]


def printed(letter):
    return letter if letter.isprintable() else "\u00b7"


def width(letter):
    """How many columns of a terminal a character takes."""
    if unicodedata.combining(letter):
        return 0
    return 2 if unicodedata.east_asian_width(letter) in "WF" else 1


def explained(path, data, status, output, read=read_script):
    """The words on how the program ended, and the status of this one."""
    if status == 0:
        return f"{path}: accepted, {output.count(bytes([10]))} lines of report{'' if output else ': the script has no lives'}", 0
    refused = REFUSAL.fullmatch(output)
    if status == 3 and refused and 1 <= int(refused[1]) <= len(raw_lines(data)):
        return explanation(path, data, int(refused[1]), refused[2].decode(), read), 1
    return f"{path}: {OTHER_ENDS.get(status, f'the program ended with status {status}')}", 1 if status == 8 else 2


def explained_queue(path, data, status, output):
    """The same of a script of a queue."""
    return explained(path, data, status, output, read_queue_script)


def explained_pool(path, data, status, output):
    """The same of a script of clients that share callers."""
    return explained(path, data, status, output, read_pool_script)


def explained_image(path, data, status, output):
    """The same of an image text that was to be recovered."""
    if status == 0:
        return f"{path}: accepted, {output.count(bytes([10]))} lines", 0
    refused, fault = REFUSAL.fullmatch(output), REFUSED_IMAGE.fullmatch(output)
    if status == 3 and refused and 1 <= int(refused[1]) <= len(raw_lines(data)) + 1:
        return explanation(path, data, int(refused[1]), refused[2].decode(), read_image), 1
    if status == 7 and fault:
        return why_bad(path, data, fault[1].decode()), 1
    return explained(path, data, status, b"")


def why_bad(path, data, fault):
    """What is said of an image that was refused for this fault: which word, what was found, and what was wanted."""
    parts = [f"{path}: {fault}", "", CHECKS.get(fault.split(" ")[0], UNKNOWN)]
    try:
        image = read_image(data)
        recovered(image)
    except BadImage as bad:
        if bad.fault == fault:
            where = "" if bad.at is None else f"At {place_of(image, bad.at)}:\n"
            return "\n".join([*parts, "", f"{where}found {bad.found}\nwanted {bad.wanted}"])
    except (Refusal, TooLong):
        pass
    return "\n".join([*parts, "", "Read by docs/FORMATS.md alone, the image has another first fault, or none."])


def meaning(status):
    """What a status means with which the program ended, or a shell told of it."""
    if status in OTHER_ENDS:
        return f"status {status}: {OTHER_ENDS[status]}"
    if status > 128:
        return f"status {status}: the program was ended by signal {status - 128}"
    return f"status {status}: docs/FORMATS.md has none such" if status not in (0, 3) else f"status {status}: what was written says all"


# what the program is asked for, and how it is explained what came of it
OTHER_TEXTS = {"--fifo": (["fifo"], explained_queue), "--pool": (["pool", "8"], explained_pool), "--image": (["recover"], explained_image)}


def main(words):
    if helped(__doc__, words):
        return 0
    if words[:1] == ["--status"] and len(words) == 2 and words[1].isascii() and words[1].isdigit():
        print(meaning(int(words[1])))
        return 0
    program = built()
    if words[:1] == ["--program"] and len(words) > 1:
        program, words = Path(words[1]), words[2:]
    asked, explain = ["run"], explained
    if words and words[0] in OTHER_TEXTS:
        (asked, explain), words = OTHER_TEXTS[words[0]], words[1:]
    if len(words) != 1:
        print("usage: explain.py [--program PATH] [--fifo | --pool | --image] FILE")
        return 2
    if not program.exists():
        print(f"no program at {program}; {HOW_TO_BUILD}")
        return 2
    try:
        data = Path(words[0]).read_bytes()
        ended = subprocess.run([program.resolve(), *asked], input=data, capture_output=True, check=False)
    except OSError as error:
        print(f"{error.filename}: {error.strerror}")
        return 2
    said, status = explain(words[0], data, ended.returncode, ended.stdout)
    print(said)
    return status


if __name__ == "__main__":
    sys.exit(main(sys.argv[1:]))
