"""What a check says of the wrong bodies that it was given."""

import re

from wrong_bodies.layout import functions_in

PLACE = re.compile(r"(?m)^(?:note: )?(?:\./)?((?:src|specs|proofs)/\S+?):(\d+):\d+: (error.*|it is not proved.*)")
VERDICT = re.compile(r"(?m)^(?:fn|impl|struct|enum|trait) (\S+): (proved(?=(?:, may wait)?$)|.*)")
# What the prover says of a text that it cannot read, and of one that rests on what is refused or gone.
UNREAD = re.compile(r"is not in scope|has no field|is no name|operand is missing|expected the end|cannot continue")
SECOND_HAND = re.compile(UNREAD.pattern + r"|has no `|was not admitted")
# Of a declaration that is only not looked at, since it rests on one that is refused.
DEPENDENT = re.compile(r"error: \d+ declarations? that depends? on ")
PROVED = "proved"


def is_refusal(said, unless):
    """Whether the prover has an open goal or an error of a declaration, and says none of these words of it."""
    return re.match("it is not proved|error: `[^`]*`: ", said) and not unless.search(re.sub("`[^`]*`", "`", said))


def verdicts_of(ended, copies, texts):
    """What a check of these copies of functions says of each: PROVED, the error that refuses it, or None. It says
    nothing of all of them if something fails beside them."""
    functions = {it.name: it for path, text in texts.items() if path.endswith(".rt") for it in functions_in(path, text)}

    def copy_at(path, line):
        holds = lambda it: it.path == path and it.first < line <= it.last + 1
        return next((name for name in copies if f"/{name}/" in path or holds(functions[name])), None)

    places = [(copy_at(path, int(line)), said) for path, line, said in PLACE.findall(ended.stdout)]
    # The name of a closure has that of its function.
    copy_of = lambda name: next((it for it in name.split("::") if it in copies), None)
    own = [(copy_of(name), said) for name, said in VERDICT.findall(ended.stdout)]
    fails_beside = any(not name for name, _ in places) or any(not name and said != PROVED for name, said in own)
    if fails_beside or ended.returncode not in (0, 1) or not re.search(r"(?m)^only=\d+ ", ended.stdout):
        return {}
    found = {}
    for name in copies:
        said = {it for copy, it in own if copy == name}
        errors = [it for copy, it in places if copy == name and is_refusal(it, SECOND_HAND)]
        is_refused = errors and any(re.match("not proved|no proof", it) for it in said)
        found[name] = PROVED if said == {PROVED} else errors[0] if is_refused else None
    return found


def refusal_of_whole(ended, texts):
    """The error by which a check of a whole crate with these texts refuses them, and None; or None, and why none."""
    if ended.returncode == 0:
        return None, "NOT REFUSED: the crate is proved with it"
    places = PLACE.findall(ended.stdout)
    is_stated = lambda path: path in texts or path.startswith(("src/", "specs/"))
    unread = [": ".join(it) for it in places
              if is_stated(it[0]) and not is_refusal(it[2], UNREAD) and not DEPENDENT.match(it[2])]
    if ended.returncode != 1 or unread or not re.search("(?m)^logic=not-proved", ended.stdout):
        return None, f"NOT TRIED: {[*unread, ended.stdout[-300:]][0]}"
    refusals = [said for _, _, said in places if is_refusal(said, SECOND_HAND)]
    return [*refusals, "the crate is not proved"][0], None
