"""Small folders of Unicode's and CLDR's files: the letters a to d, and six languages, whose orders can be worked out by hand."""
import os

LETTERS = "".join(f"{code:04X} ; [.{0x300 + at // 2:04X}.0020.{(2, 8)[at % 2]:04X}]\n" for at, code in enumerate(map(ord, "aAbBcCdD")))
DIGITS = "".join(f"{0x30 + it:04X} ; [.{0x210 + it:04X}.0020.0002]\n" for it in range(10))
SIGNS = "".join(f"{code:04X} ; [{mark}{0x201 + at:04X}.0020.0002]\n" for at, (code, mark) in enumerate([(0x20, "*"), (0x5F, "*"), (0x60, "*"), (0x9F4, "."), (0x2D0, "."), (0xA4, ".")]))

UNICODE = {
    "allkeys.txt": f"@version 15.0.0\n{SIGNS}{DIGITS}{LETTERS}0301 ; [.0000.0024.0002]\n",
    "DerivedCombiningClass.txt": "0300..0314 ; 230\n",
    "PropList.txt": "# PropList-15.0.0.txt\n4E00..9FFF ; Unified_Ideograph\n",
    "Blocks.txt": "4E00..9FFF; CJK Unified Ideographs\n",
    "Scripts.txt": "0041..005A ; Latin\n0061..007A ; Latin\n4E00..9FFF ; Han\n0020..0040 ; Common\n",
    "PropertyValueAliases.txt": "sc ; Latn ; Latin\nsc ; Hani ; Han\nsc ; Zyyy ; Common\n",
}


def collation(default="standard", **kinds):
    """A file of collations, which has these rules."""
    rules = "".join(f'<collation type="{kind}"><cr><![CDATA[{text}]]></cr></collation>' for kind, text in kinds.items())
    return f"<ldml><collations><defaultCollation>{default}</defaultCollation>{rules}</collations></ldml>"


def codes(text):
    return f'<supplementalData><idValidity><id idStatus="regular">{text}</id></idValidity></supplementalData>'


NAMES = {"de": "German", "en": "English", "eu": "Basque", "he": "Hebrew", "pl": "Polish", "zh": "Chinese", "zh_Hant": "Traditional Chinese"}
CLDR = {
    "dtd/ldml.dtd": '<!ATTLIST version cldrVersion CDATA #FIXED "41" >\n',
    "collation/root.xml": collation(standard=""),
    # a after c
    "collation/pl.xml": collation(standard="&c < a <<< A"),
    "collation/de.xml": collation(standard="", phonebook="&d < b <<< B"),
    "collation/he.xml": collation(standard="&d < c <<< C"),
    "collation/zh.xml": collation("pinyin", pinyin="&d < a <<< A"),
    "collation/zh_Hant.xml": collation("stroke", stroke="&b < a <<< A"),
    "main/root.xml": '<ldml><exemplarCharacters type="index">[A B C D]</exemplarCharacters></ldml>',
    "main/eu.xml": "<ldml/>",
    "main/en.xml": "<ldml><languages>" + "".join(f'<language type="{code}">{name}</language>' for code, name in NAMES.items()) + "</languages></ldml>",
    "validity/language.xml": codes("de eu he pl zh"),
    "validity/script.xml": codes("Hans Hant Latn"),
    "validity/region.xml": codes("DE SG TW"),
    "supplemental/supplementalMetadata.xml": '<supplementalData><languageAlias type="iw" replacement="he"/></supplementalData>',
    "supplemental/likelySubtags.xml": "<supplementalData>"
    + "".join(f'<likelySubtag from="{one}" to="{other}"/>' for one, other in (("zh", "zh_Hans_CN"), ("zh_TW", "zh_Hant_TW"), ("zh_SG", "zh_Hans_SG")))
    + "</supplementalData>",
}


def write(folder, files):
    """Writes files into a folder."""
    for name, text in files.items():
        os.makedirs(os.path.dirname(f"{folder}/{name}"), exist_ok=True)
        with open(f"{folder}/{name}", "w", encoding="utf-8") as file:
            file.write(text)
