"""Language tags: which locale, collation and settings a tag such as `de-u-co-phonebk-kf-upper` names (UTS #35 Part 1, section 3). Part of languages/languages.py."""
import functools
import os
import re
import xml.etree.ElementTree
from typing import NamedTuple

from cldr_rules import KINDS, CldrError, has_rules

# The settings that a table can have, and their values; None stands for a list of codes. `kb-false` says that accents do not count from the end.
VALUES = {"kf": ("upper", "lower", "false"), "ka": ("noignore", "shifted"), "kb": ("false",), "kr": None}
NAMES = {"co": "a collation", "kf": "upper or lower case first", "ka": "the weighting", "kr": "the order of scripts", "kb": "accents from the end"}
REAL = ("regular", "special", "macroregion", "deprecated")  # lists of codes that are no placeholders and not for private use
GROUPS = ("space", "punct", "symbol", "currency", "digit")
OTHERS = "Zzzz"  # all scripts that a script order does not name
SHORT_KINDS = {kind: short for short, kind in KINDS.items()}
NO_RULES = "CLDR has no rules of its own for this language, so its order is that of the root (und)"
# The languages whose orders go by the script of their region, such as Hant in zh-TW. Serbian is Cyrillic in all regions, as in ICU.
BY_SCRIPT = ("zh", "yue")


class Tag(NamedTuple):
    """A language tag. Its text is the one by which CLDR names it, such as `he` where `iw` is given. The locale is as in the names of CLDR's files, such as `de_AT`. The kind is None for
    the default collation. A locale without rules of its own has those of the root."""

    text: str
    locale: str
    kind: str | None
    settings: dict[str, str]
    has_rules: bool

    @property
    def name(self):
        """Where the rules are: a locale and a collation."""
        return (self.locale if self.has_rules else "root") + (f"-u-co-{self.kind}" if self.kind else "")


@functools.cache
def parsed(folder, name):
    """The root element of one of CLDR's files."""
    path = os.path.join(folder, name)
    try:
        return xml.etree.ElementTree.parse(path).getroot()
    except FileNotFoundError as error:
        raise CldrError(f"{path}: there is no such file of CLDR. Debian has it in the package unicode-cldr-core: apt install unicode-cldr-core") from error
    except (OSError, xml.etree.ElementTree.ParseError) as error:
        raise CldrError(f"{path}: {error}") from error


@functools.cache
def listed(folder, what):
    """The codes of `language`, `script` or `region` that CLDR lists, and its ranges of them, such as `aa~c` for aa, ab and ac."""
    root = parsed(folder, os.path.join("validity", f"{what}.xml"))
    return " ".join(one.text or "" for one in root.iter("id") if one.get("idStatus") in REAL).split()


def valid(folder, what, code):
    """Whether CLDR lists a code of `language`, `script` or `region`."""
    for it in listed(folder, what):
        low, _, end = it.partition("~")
        if len(low) == len(code) and low <= code <= low[: len(low) - len(end)] + end:
            return True
    return False


@functools.cache
def pairs_of(folder, name, element, key, value):
    """What elements of a file of CLDR say, as a dictionary."""
    return {it.get(key): it.get(value) for it in parsed(folder, os.path.join("supplemental", name)).iter(element)}


def alias(folder, language):
    """What CLDR has in the place of a language: `he` for `iw`, and `sr_Latn` for `sh`."""
    return pairs_of(folder, "supplementalMetadata.xml", "languageAlias", "type", "replacement").get(language, language)


def likely_script(folder, language, region):
    """The script that CLDR takes for a language, or for a language in a region."""
    likely = pairs_of(folder, "likelySubtags.xml", "likelySubtag", "from", "to")
    return likely.get(f"{language}_{region}", likely.get(language, "__")).split("_")[1]


def locale_of(folder, text, parts):
    """The locale of the parts before `-u-`: a language, and perhaps a script and a region, each of CLDR's lists."""
    given, *rest = parts
    language, *more = ("und" if given.lower() == "root" else alias(folder, given.lower())).split("_")
    if language != "und" and not valid(folder, "language", language):
        raise CldrError(f"{text}: `{given}` is no language of CLDR")
    found = {"language": language, **{"script" if len(it) == 4 else "region": it for it in more}}
    for what, pattern in (("script", "[A-Za-z]{4}"), ("region", "[A-Za-z]{2}|[0-9]{3}")):
        if rest and re.fullmatch(pattern, rest[0]):
            code = rest[0].capitalize() if what == "script" else rest[0].upper()
            if not valid(folder, what, code):
                raise CldrError(f"{text}: `{rest[0]}` is no {what} of CLDR")
            found[what] = code
            rest.pop(0)
    if [it.upper() for it in rest] == ["POSIX"] and found == {"language": "en", "region": "US"}:  # the only order of a variant
        found["variant"] = rest.pop().upper()
    if rest:
        raise CldrError(f"{text}: `{rest[0]}` is neither a script nor a region. A collation comes after -u-co-, as in de-u-co-phonebk")
    if language in BY_SCRIPT and "region" in found and "script" not in found:
        script = likely_script(folder, language, found["region"])
        found |= {"script": script} if script != likely_script(folder, language, "") else {}
    return "_".join(found[it] for it in ("language", "script", "region", "variant") if it in found)


def keywords(text, parts):
    """The keys after `-u-` with their values. Each key has two characters, and each part of a value at least three."""
    found = {}
    for part in map(str.lower, parts):
        if len(part) == 2 and part not in found:
            found[part] = []
        elif len(part) < 3 or not found:
            raise CldrError(f"{text}: `{part}` cannot come at this place")
        else:
            found[list(found)[-1]].append(part)
    return {key: " ".join(value) for key, value in found.items()}


def parts_of(text):
    """The parts of a tag before `-u-`, and the keys and values after it."""
    if not re.fullmatch("[A-Za-z0-9]+([-_][A-Za-z0-9]+)*", text):
        raise CldrError(f"{text}: this is no language tag such as sv or de-u-co-phonebk")
    locale, sign, rest = text.partition("-u-")
    return re.split("[-_]", locale), keywords(text, re.split("[-_]", rest)) if sign else {}


def written(parts, found):
    """A tag of these parts, and of the keys in the order of their names."""
    more = [it for key in sorted(found) for it in (key, *found[key].split())]
    return "-".join([*parts, *(["u", *more] if more else [])])


def read_tag(folder, text, allowed=tuple(NAMES)):
    """Reads a tag. Whatever it has beside a locale, `co` and the settings that are allowed is an error."""
    parts, found = parts_of(text)
    for key, value in found.items():
        if key not in allowed:
            more = "" if key not in NAMES else " by rules: `languages/languages.py table` has it"
            raise CldrError(f"{text}: `{key}` cannot be had{more}. These can: {', '.join(f'{it} ({NAMES[it]})' for it in allowed)}")
        if not value or VALUES.get(key) and value not in VALUES[key]:
            raise CldrError(f"{text}: `{value or key}` is no value of {key}" + (f": {', '.join(VALUES[key])}" if VALUES.get(key) else ""))
    locale = locale_of(folder, text, parts)
    given = found.pop("co", "").replace(" ", "-")
    kind = KINDS.get(given, given) or None  # such as `phonebook` for `phonebk`
    name = written(locale.split("_"), found | ({"co": SHORT_KINDS.get(kind, kind)} if kind else {}))
    locale = "root" if locale == "und" else locale
    return Tag(name, locale, kind, found, has_rules(folder, locale))


def rootless(tag):
    """The sentence for a tag whose language has no rules of its own; nothing for other tags."""
    return "" if tag.has_rules else f"{tag.text}: {NO_RULES}"


def script_codes(folder, text):
    """The codes of a script order, such as `Latn Hani digit`, from the value of `kr`."""
    found = []
    for it in text.split():
        code = it if it in GROUPS else it.capitalize()
        if code not in (*GROUPS, OTHERS) and not valid(folder, "script", code):
            raise CldrError(f"`{it}` is no script of CLDR, and none of {', '.join(GROUPS)} and zzzz")
        found.append(code)
    return found
