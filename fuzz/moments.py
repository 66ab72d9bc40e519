"""What `session` writes as it goes: the text of each moment, with how many calls of standard input come before it, told from what it writes
where the input ends after each of its lines."""

MOST_BYTES = 67108864


def unended(text):
    """What is written until the input ends, of a text that tells that it has ended."""
    lines = text.splitlines(keepends=True)
    assert lines.pop() == b"input ended\n"
    while lines and lines[-1].startswith(b"# open "):
        lines.pop()
    return b"".join(lines)


def of(say, source, blanks=0):
    """The status of a talk and its moments, in their order: how many calls of the source come before each, one for each byte and one for
    the end of the input, and what is written then. `say` gives status and text for the bytes of the source; `blanks` stand before them."""
    made, told = [], b""
    for end in [0] + [place + 1 for place, byte in enumerate(source) if byte == 10]:
        status, text = say(source[:end])
        so_far = unended(text) if status == 9 else text
        made.append((end and end + blanks, so_far[len(told):]))
        if status != 9:
            return status, made
        told = so_far
    status, text = say(source)
    return status, made + [(min(len(source) + blanks + 1, MOST_BYTES), text[len(told):])]


def cut_by_source(status, made, failing):
    """The same where the source's call of that number, counted from 1, fails; 0 is none."""
    if not 1 <= failing <= made[-1][0]:
        return status, made
    return 3, [one for one in made if one[0] < failing] + [(failing, b"cannot read input\n")]


def cut_by_sink(status, made, piece, failing):
    """The status, the text that the sink takes and the calls of the source until then, where a put takes so many bytes and the one of that
    number, counted from 1, fails; 0 is none. What is written at a moment is one text."""
    taken, puts = b"", 0
    for before, text in made:
        more = -(-len(text) // piece)
        if puts < failing <= puts + more:
            return 4, taken + text[:piece * (failing - puts - 1)], before
        taken, puts = taken + text, puts + more
    return status, taken, made[-1][0]
