"""The sentences of a page, for documents.py: those that are too long, and those in which no verb is found.

A page is read roughly: code, tables, headings and pictures are left out; a list's item is a block of its own. A word counts as
a verb where it is one of the forms made from the list below. Many of these are nouns too, so a sentence without a verb may pass;
one with a verb that the list lacks is told, and then the verb belongs into the list."""
import re

MOST_WORDS = 30
FORMS = """am is are was were be been being has have had does do did done can cannot could may might must shall should will would
isn't aren't wasn't weren't hasn't haven't doesn't don't didn't can't couldn't mustn't shouldn't won't wouldn't it's that's there's
began begun begins bound broke broken brought built came chose chosen comes cut did done drawn drew fell fallen felt found forgotten gave given goes
gone got grew grown held hung kept knew known laid lain left lent lets lies lost made makes means meant met needn't paid put read ran run said saw seen
sent set shown shut slept sold spent split stood stuck taken taught tells thought thrown told took tore understood went won written wrote""".split()
BASES = """accept accompany act add admit agree allow announce answer appear append apply ask assume attach avoid await base become begin behave
believe belong bind block break bring build call cancel carry cast catch cause change check choose cite claim clear close come compare compile compute
concern connect consist contain continue contradict copy cost count cover crash create cut deal decide declare define delay delete demand deny depend derive
describe destroy die differ discard dispatch display dispose divide do draw drive drop embed enable end ensure enter equal establish excuse execute exist
expand expect explain export extend fail fall feel file fill find finish fire fit fix follow forbid forget form free gather generate get give go grow
guarantee guess handle hang happen have hear help hide hint hit hold hope ignore imply import include increase insert install intend intercept invent join
judge jump keep know land last lay lead leak learn leave lend let lie limit link list listen live load lock look loop lose make mark match matter mean
measure meet mention mend merge migrate miss mix move multiply name need nest note notice nudge obey obtain offer omit open order overflow own paint part
pass pay permit pick place plan play point post prefer prevent print produce promise prove provide pull put quit race raise reach read recall receive recognise
record recycle refuse register reject rely remain remember remove rename repeat replace report represent request require reserve rest restrict result
retire return reuse ring rise rule run save say scan schedule seal search see seem select send separate serve set settle share ship show shut sit skip sleep
solve sort speak specify spend spin split stand start state stay step stop store strand study succeed suffice sum supply support suppose survive take talk
teach tell test think throw tie tire touch trace transfer travel treat try turn type understand unlink unpack update use vary verify visit wait wake walk
want warn waste watch win wish wonder work worry wrap write yield trust name install draw reserve enter deliver refer clean spare guide index
map fit hand cap hint judge charge seat subtract truncate round guard invoke interpret render refuse parse spell spread stem suit bear grant greet hurt
introduce label lack lag learn press prune rank rate reason regard relate release repair reset resolve respect resume retry reverse rewrite rotate sample
sanitise scroll sense sign signal simulate slow span sponsor square stack stress strengthen stretch strip submit suggest swap sync thank touch track train
transform translate trigger trim unite view violate void weaken weigh widen zoom intern balance lift freeze bisect blank bump cross cure deem dominate fold fork""".split()


def inflected(base):
    """The forms of a regular verb, and some that no verb has."""
    forms = {base, base + "s", base + "es", base + "ed", base + "d", base + base[-1] + "ed"}
    if base.endswith("y"):
        forms |= {base[:-1] + "ies", base[:-1] + "ied"}
    return forms


VERBS = {form for base in BASES for form in inflected(base)} | set(FORMS)


def blocks_of(text):
    """The paragraphs and list items of a page, each as (number of its first line, text, whether it is an item behind a colon)."""
    found, lines, first, item, led = [], [], 0, False, False
    fenced = False

    def close():
        nonlocal lines
        if lines:
            found.append((first, "\n".join(lines), item and led))
        lines = []

    blank, code = True, False
    for number, line in enumerate(text.splitlines(), 1):
        if line.startswith("```"):
            close()
            fenced = not fenced
            continue
        if fenced:
            continue
        if not line.strip():
            close()
            blank = True
            continue
        if line.startswith("    ") and (blank or code) and not lines:
            code = True
            continue
        code = False
        if re.match(r"#|\||<|!\[|\[[^\]]+\]: ", line):
            close()
            blank = False
            if line.startswith("#"):
                led = False
            continue
        starts = re.match(r"\s*(?:[-*]|\d+\.) ", line)
        if starts or not lines:
            was = lines[-1] if lines else (found[-1][1] if found else "")
            close()
            if starts and not item:
                led = was.rstrip().endswith(":")
            item = bool(starts) or (item and blank and line.startswith("  "))
            first = number
            line = line[starts.end():] if starts else line
        lines.append(line.strip())
        blank = False
    close()
    return found


def plain(text):
    """A block without its links, marks and code."""
    text = re.sub(r"!\[[^\]]*\]\([^)]*\)", "", text)
    text = re.sub(r"\[([^\]]+)\](?:\([^)]*\)|\[[^\]]*\])", r"\1", text, flags=re.S)
    text = re.sub(r"`[^`]*`", "CODE", text)
    # words in bold at the head of a block are its heading
    text = re.sub(r"^\*\*[^*]{1,40}(?:\.\*\*|\*\*$)", "", text)
    text = re.sub(r"\*\*|\*", "", text)
    return re.sub(r" ?\((?:see )?CODE(?:(?:,| and| or|;)? CODE)*(?: of \w+)?(?: in CODE)?\)", "", text)


def sentences_of(text):
    """The sentences of a page, each with its line: (line, sentence, whether it may lack a verb)."""
    for line, block, led in blocks_of(text):
        parts = re.split(r"(?<=[.!?])['\")]*(?:\n|\s+(?=[A-Z0-9(\"']))", plain(block))
        for part in parts:
            excused = led and not part.rstrip().endswith(".")
            yield line, " ".join(part.split()), excused


def words_of(sentence):
    return [word for word in sentence.split() if re.search(r"\w", word)]


def has_verb(sentence):
    return any(re.sub(r"[^a-z']", "", word.lower()) in VERBS for word in re.split(r"[\s/-]+", sentence))


def faults_in(name, text):
    """What is wrong with the sentences of a page."""
    for line, sentence, excused in sentences_of(text):
        words = words_of(sentence)
        if len(words) > MOST_WORDS:
            yield f"{name}:{line}: a sentence of {len(words)} words: {sentence[:90]}.."
        if len(words) > 1 and not excused and not has_verb(sentence) and not (sentence.endswith(":") and len(words) < 6):
            yield f"{name}:{line}: no verb is found: {sentence[:90]}"
