"""Changes of what the tools say, of which each has to be found."""
import re

JOURNALS, TABLE, REASONS = 0, 1, 2
NUMBER = r"(?<![\w{])(\d{1,18})\b"
REPLY = r"(^\d+ c step.* -> \((?:.*, )?)"


def by(place, pattern, change, count=1):
    """A change of the first lines of this form in what is said at this place."""
    def spoil(said):
        texts = list(said)
        texts[place] = re.sub(f"(?m){pattern}", change, texts[place], count=count)
        return texts
    return spoil


def one_more(match):
    return f"{match[1]}{int(match[2]) + 1}"


SPOILERS = {
    "a number in a reply": by(JOURNALS, REPLY + NUMBER, one_more),
    "a truth value in a reply": by(JOURNALS, rf"{REPLY}true\b", r"\1false"),
    "an absent value in a reply": by(JOURNALS, rf"{REPLY}-(?=[,)])", r"\g<1>0"),
    "a value that is absent in a reply": by(JOURNALS, REPLY + NUMBER, r"\1-"),
    "a number in a burst's reply": by(JOURNALS, r"(^\d+ c burst.* -> .*)" + NUMBER, one_more),
    "outputs for a fault": by(JOURNALS, r"(^\d+ c step.* -> )refused fault$", r"\1(0)"),
    "a fault for outputs": by(JOURNALS, r"(^\d+ c step.*) -> \(.*$", r"\1 -> refused fault"),
    "a fault for a burst's outputs": by(JOURNALS, r"(^\d+ c burst.*) -> \(.*$", r"\1 -> refused fault"),
    "shape for presence": by(JOURNALS, r"refused presence$", "refused shape"),
    "a restore of what wasn't saved": by(JOURNALS, r"refused nosave$", "done"),
    "a request that wasn't made": by(JOURNALS, r"(^\d+ c )save 0", r"\1save 1"),
    "a journal's count": by(JOURNALS, r"(^entries )(\d+)", one_more),
    "a line too few in a table": by(TABLE, r"^k\d,\d+,,.*\n", ""),
    "a line too many in a table": by(TABLE, r"(^k\d,\d+,,.*\n)(?=\n|\Z)", r"\1\1"),
    "a table without a reset": by(TABLE, r"^k\d,,reset,.*\n", ""),
    "a table's instant": by(TABLE, r"(^k\d,)(\d+)", one_more),
    "an input in a table": by(TABLE, r"(^k\d,\d+,,)true\b", r"\1false"),
    "an operation that can't be told": by(REASONS, r"refused fault: .*", "refused fault: which operation has no value can't be told"),
    "an operation that has a value": by(REASONS, r"refused fault: .* at", "refused fault: 1 + 1 at"),
    "an operation in another row": by(REASONS, r"refused fault: (?!row)", "refused fault: row 2, "),
    "an operation at another instant": by(REASONS, r"(refused fault: .*, instant )(\d+)", one_more),
    "an operation at another place": by(REASONS, r"(refused fault: .* at) line \d+", r"\1 line 1"),
    "a journal that isn't lawful": by(REASONS, r" lawful$", " line 2"),
    "a reason too few": by(REASONS, r"^.* refused .*\n", ""),
}

# Of each reply with a number above 3 the last such is one more: a difference that doesn't go away when a case gets smaller.
LARGER = by(JOURNALS, r"(^\d+ c step.* -> .*)(?<![\w{-])([4-9]|[1-9]\d{1,17})\b", one_more, 0)
