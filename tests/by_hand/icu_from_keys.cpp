/* What ICU4C gives where docs/FROM_KEYS.md takes keys alone. Lines have two fields with a tab between, or one.

     icu_from_keys merge LOCALE < LINES        the merged sort key of both fields, in hexadecimal (ucol_mergeSortkeys)
     icu_from_keys joined LOCALE < LINES       the sort key of the fields with U+FFFE between them
     icu_from_keys find LOCALE < LINES         whether the first field is found in the second at the primary strength: 1 or 0 (usearch)
     icu_from_keys buckets LOCALE < LINES      the label of the bucket of a line (AlphabeticIndex)

   The locale is ICU's, such as zh@collation=stroke. Spaces and punctuation count like letters, and texts are normalized. */
#include <cstdio>
#include <cstdlib>
#include <iostream>
#include <memory>
#include <string>
#include <unicode/alphaindex.h>
#include <unicode/ucol.h>
#include <unicode/usearch.h>

using icu::AlphabeticIndex;
using icu::UnicodeString;

static void stop_at(UErrorCode status, const char *what)
{
    if (U_FAILURE(status)) {
        fprintf(stderr, "%s: %s\n", what, u_errorName(status));
        exit(1);
    }
}

static UCollator *opened(const char *locale)
{
    UErrorCode status = U_ZERO_ERROR;
    UCollator *found = ucol_open(locale, &status);
    ucol_setAttribute(found, UCOL_NORMALIZATION_MODE, UCOL_ON, &status);
    ucol_setAttribute(found, UCOL_ALTERNATE_HANDLING, UCOL_NON_IGNORABLE, &status);
    stop_at(status, locale);
    return found;
}

static std::string key_of(const UCollator *collator, const UnicodeString &text)
{
    std::string key(ucol_getSortKey(collator, text.getBuffer(), text.length(), nullptr, 0), '\0');
    ucol_getSortKey(collator, text.getBuffer(), text.length(), (uint8_t *)key.data(), (int32_t)key.size());
    return key;
}

static std::string merged(const std::string &first, const std::string &second)
{
    std::string key(first.size() + second.size() + 1, '\0');
    int32_t size = ucol_mergeSortkeys((const uint8_t *)first.data(), (int32_t)first.size(), (const uint8_t *)second.data(), (int32_t)second.size(), (uint8_t *)key.data(), (int32_t)key.size());
    key.resize(size);
    return key;
}

static void print_key(const std::string &key)
{
    for (unsigned char byte : key)
        printf("%02x", byte);
    printf("\n");
}

/* Whether ICU finds a text in another one. */
static bool is_found(const UCollator *collator, const UnicodeString &needle, const UnicodeString &text)
{
    UErrorCode status = U_ZERO_ERROR;
    if (needle.isEmpty() || text.isEmpty())
        return false;
    UStringSearch *search = usearch_openFromCollator(needle.getBuffer(), needle.length(), text.getBuffer(), text.length(), collator, nullptr, &status);
    int32_t at = usearch_first(search, &status);
    stop_at(status, "usearch");
    usearch_close(search);
    return at != USEARCH_DONE;
}

static void pairs(const std::string &what, UCollator *collator)
{
    UErrorCode status = U_ZERO_ERROR;
    if (what == "find")
        ucol_setAttribute(collator, UCOL_STRENGTH, UCOL_PRIMARY, &status);
    for (std::string line; std::getline(std::cin, line);) {
        size_t tab = line.find('\t');
        UnicodeString first = UnicodeString::fromUTF8(line.substr(0, tab)), second = UnicodeString::fromUTF8(line.substr(tab + 1));
        if (what == "merge")
            print_key(merged(key_of(collator, first), key_of(collator, second)));
        else if (what == "joined")
            print_key(key_of(collator, first + UnicodeString(u'\uFFFE') + second));
        else
            printf("%d\n", is_found(collator, first, second));
    }
}

static void buckets(const char *locale)
{
    UErrorCode status = U_ZERO_ERROR;
    AlphabeticIndex index(icu::Locale(locale), status);
    stop_at(status, locale);
    std::unique_ptr<AlphabeticIndex::ImmutableIndex> built(index.buildImmutableIndex(status));
    stop_at(status, locale);
    for (std::string line; std::getline(std::cin, line);) {
        std::string label;
        int32_t at = built->getBucketIndex(UnicodeString::fromUTF8(line), status);
        stop_at(status, line.c_str());
        built->getBucket(at)->getLabel().toUTF8String(label);
        printf("%s\n", label.c_str());
    }
}

int main(int count, char **words)
{
    std::string what = count == 3 ? words[1] : "";
    if (what == "buckets") {
        buckets(words[2]);
    } else if (what == "merge" || what == "joined" || what == "find") {
        UCollator *collator = opened(words[2]);
        pairs(what, collator);
        ucol_close(collator);
    } else {
        fprintf(stderr, "icu_from_keys merge|joined|find|buckets LOCALE < LINES\n");
        return 2;
    }
}
