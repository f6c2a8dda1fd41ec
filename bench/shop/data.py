#!/usr/bin/env python3
"""Writes the N-Quads of a shop to standard output, in the manner of the Berlin SPARQL Benchmark: product types, features, producers, products,
vendors, offers, persons and reviews, with long texts. All stand in the default graph.

usage: bench/shop/data.py [TRIPLES] [SEED]

About so many triples are written (1,000,000, some 220 MB), the same for the same seed (1). Of each 1,000 products there are 20,000 offers and
10,000 reviews. Prices are whole cents and days are numbers like 20080714, since the profile has neither decimals nor dates with a value.
"""
import hashlib
import random
import sys

SHOP = "http://www.shop.example/vocabulary/"
DATA = "http://www.shop.example/instances/"
RDF = "http://www.w3.org/1999/02/22-rdf-syntax-ns#"
RDFS = "http://www.w3.org/2000/01/rdf-schema#"
FOAF = "http://xmlns.com/foaf/0.1/"
DC = "http://purl.org/dc/elements/1.1/"
REV = "http://purl.org/stuff/rev#"
INSTITUTION = f"{DATA}StandardizationInstitution1"
INTEGER = "http://www.w3.org/2001/XMLSchema#integer"

TRIPLES_A_PRODUCT = 354
"""How many triples there are for each product, with its offers and reviews."""
OFFERS, REVIEWS = 20, 10
"""How many there are for each product."""
TODAY = 20080701
"""A day on which some offers are valid."""
COUNTRIES = [
    *(("US", "en", 40), ("GB", "en", 10), ("JP", "ja", 10), ("CN", "zh", 10), ("DE", "de", 5)),
    *(("FR", "fr", 5), ("ES", "es", 5), ("RU", "ru", 5), ("KR", "ko", 5), ("AT", "de", 5)),
]
"""Countries, with their languages and how many of a hundred firms and persons are there."""
SYLLABLES = {
    "en": "al an ar ber con der dis en er for gal in ing ister ket lan les mar men nor on per ra ron sel ten ter ti un ver",
    "de": "ab än ber chen der ein er für ge haus heit kel lich mög nach ober rei sch stö tung über ver weiß zen",
    "fr": "ai ble ché com de é ère eur fran gé ier jour lé mai ment ou pré que ré son té veau",
    "es": "al año ción co da do el ería es ía jo la llo mar men ñ or pa que ra ria sión ta ver",
    "ru": "ан бо ва го де ение ер за ка ли мо на ния о по пре ра ро ст та те тор ув ход",
    "ja": "あ い う か き さ し た つ て と な に の は ひ ま も や ら り る 商 品 店 買 物 良",
    "zh": "商 品 店 买 物 好 大 小 新 价 格 质 量 快 送 包 装 用 户 评 论 很",
    "ko": "가 나 다 라 마 바 사 아 자 차 카 타 파 하 상 품 점 물 건 좋",
}


class Draw:
    """Draws by a seed. It takes `random()` alone, which each version of Python has alike."""

    def __init__(self, seed):
        self.next = random.Random(seed).random

    def below(self, bound):
        return int(self.next() * bound)

    def between(self, first, last):
        return first + self.below(last - first + 1)

    def of(self, items):
        return items[self.below(len(items))]

    def country(self):
        """Returns a country and its language."""
        left = self.below(sum(weight for _, _, weight in COUNTRIES))
        for name, language, weight in COUNTRIES:
            left -= weight
            if left < 0:
                return name, language

    def day(self):
        """Returns a day of two years around TODAY."""
        return 10000 * self.between(2007, 2008) + 100 * self.between(1, 12) + self.between(1, 28)


def words_of(language, count):
    """Returns so many different words."""
    draw, syllables, made = Draw(language), SYLLABLES[language].split(), {}
    while len(made) < count:
        made["".join(draw.of(syllables) for _ in range(draw.between(2, 4)))] = None
    return list(made)


class Shop:
    """A shop of about so many triples. It holds what is linked with what; the rest is drawn where it is written."""

    def __init__(self, triples=1_000_000, seed=1):
        self.seed, draw = seed, Draw(f"links {seed}")
        self.words = {language: words_of(language, 3000) for language in SYLLABLES}
        products = max(10, triples // TRIPLES_A_PRODUCT)
        types = max(9, round(0.56 * products**0.7))
        self.types = [None] + [(at - 1) // 4 for at in range(1, types)]
        """Of each product type the one above it."""
        self.features, self.features_of_type = 0, []
        for _ in self.types:
            count = draw.between(12, 50)
            self.features_of_type.append(range(self.features, self.features + count))
            self.features += count
        leaves = range(len({*self.types} - {None}), types)
        self.producer = shares(draw, products, 50)
        """Of each product its producer."""
        self.vendor = shares(draw, OFFERS * products, 1600)
        """Of each offer its vendor."""
        self.site = shares(draw, REVIEWS * products, 10_000)
        """Of each review the site where it stands."""
        self.products = [self.product_of(draw, draw.of(leaves)) for _ in range(products)]
        """Of each product its types, from the lowest one up, and its features."""
        self.offered = [draw.below(products) for _ in self.vendor]
        """Of each offer its product."""
        self.reviewed = [draw.below(products) for _ in self.site]
        """Of each review its product."""
        self.persons = [(draw.below(self.site[-1] + 1), *draw.country()) for _ in range(max(5, products // 2))]
        """Of each person the site that knows it, its country and its language."""
        self.reviewer = [draw.below(len(self.persons)) for _ in self.site]
        """Of each review its reviewer."""

    def product_of(self, draw, lowest):
        types = [lowest]
        while self.types[types[-1]] is not None:
            types.append(self.types[types[-1]])
        features = [number for each in types for number in self.features_of_type[each] if draw.below(8) == 0]
        return types, features or [self.features_of_type[lowest][0]]

    # ---- names

    def product(self, at):
        return f"{DATA}dataFromProducer{self.producer[at]}/Product{at}"

    def offer(self, at):
        return f"{DATA}dataFromVendor{self.vendor[at]}/Offer{at}"

    def review(self, at):
        return f"{DATA}dataFromRatingSite{self.site[at]}/Review{at}"

    def person(self, at):
        return f"{DATA}dataFromRatingSite{self.persons[at][0]}/Reviewer{at}"

    # ---- statements

    def quads(self):
        """Yields the statements, some at a time."""
        for part in (self.type_quads, self.feature_quads, self.firm_quads, self.product_quads, self.offer_quads, self.person_quads, self.review_quads):
            yield from part(Writer(Draw(f"{part.__name__} {self.seed}"), self.words))

    def type_quads(self, writer):
        for at, above in enumerate(self.types):
            links = [(RDFS + "subClassOf", product_type(above))] if above is not None else []
            yield writer.named(product_type(at), SHOP + "ProductType", INSTITUTION, [*links, *writer.label_and_comment(20, 50)])

    def feature_quads(self, writer):
        for at in range(self.features):
            yield writer.named(feature(at), SHOP + "ProductFeature", INSTITUTION, writer.label_and_comment(20, 50))

    def firm_quads(self, writer):
        for kind, last in (("Producer", self.producer[-1]), ("Vendor", self.vendor[-1])):
            for at in range(last + 1):
                name, page = firm(kind, at), f"http://www.{kind.lower()}{at}.example/"
                links = [(FOAF + "homepage", page), (SHOP + "country", country(writer.draw.country()[0]))]
                yield writer.named(name, SHOP + kind, name, [*writer.label_and_comment(20, 50), *links])

    def product_quads(self, writer):
        for at, (types, features) in enumerate(self.products):
            maker = firm("Producer", self.producer[at])
            links = [*writer.label_and_comment(50, 150), (SHOP + "producer", maker)]
            links += [(RDF + "type", product_type(each)) for each in types]
            links += [(SHOP + "productFeature", feature(each)) for each in features]
            for number in range(1, 7):
                # (of the last three each is missing for some products)
                if number <= 3 or writer.draw.below(10) < 6:
                    links.append((f"{SHOP}productPropertyTextual{number}", writer.text(3, 15)))
                if number <= 3 or writer.draw.below(10) < 6:
                    links.append((f"{SHOP}productPropertyNumeric{number}", writer.draw.between(1, 1000) + writer.draw.between(0, 1000)))
            yield writer.named(self.product(at), SHOP + "Product", maker, links)

    def offer_quads(self, writer):
        for at, product in enumerate(self.offered):
            vendor, begin = firm("Vendor", self.vendor[at]), writer.draw.day()
            links = [(SHOP + "product", self.product(product)), (SHOP + "vendor", vendor), (SHOP + "price", writer.draw.between(500, 1_000_000))]
            links += [(SHOP + "validFrom", begin), (SHOP + "validTo", max(begin, writer.draw.day())), (SHOP + "deliveryDays", writer.draw.between(1, 14))]
            links.append((SHOP + "offerWebpage", f"http://www.vendor{self.vendor[at]}.example/offers/Offer{at}/"))
            yield writer.named(self.offer(at), SHOP + "Offer", vendor, links)

    def person_quads(self, writer):
        for at, (site, land, _) in enumerate(self.persons):
            name = writer.text(2, 2)
            mail = Text(hashlib.sha1(name.form.encode()).hexdigest(), "")
            links = [(FOAF + "name", name), (FOAF + "mbox_sha1sum", mail), (SHOP + "country", country(land))]
            yield writer.named(self.person(at), FOAF + "Person", site_name(site), links)

    def review_quads(self, writer):
        for at, product in enumerate(self.reviewed):
            language = self.persons[self.reviewer[at]][2]
            links = [
                (SHOP + "reviewFor", self.product(product)),
                (REV + "reviewer", self.person(self.reviewer[at])),
                (SHOP + "reviewDate", writer.draw.day()),
            ]
            links += [(DC + "title", writer.text(4, 15, language)), (REV + "text", writer.text(50, 300, language))]
            links += [(f"{SHOP}rating{number}", writer.draw.between(1, 10)) for number in range(1, 5) if writer.draw.below(10) < 7]
            yield writer.named(self.review(at), SHOP + "Review", site_name(self.site[at]), links)


def shares(draw, count, mean):
    """Returns whom each of so many things belongs to, in ascending order from 0: each has about so many of them."""
    owners, owner = [], 0
    while len(owners) < count:
        owners += [owner] * draw.between(1 + mean // 2, 3 * mean // 2)
        owner += 1
    return owners[:count]


def product_type(at):
    return f"{DATA}ProductType{at}"


def feature(at):
    return f"{DATA}ProductFeature{at}"


def firm(kind, at):
    return f"{DATA}dataFrom{kind}{at}/{kind}{at}"


def site_name(at):
    return f"{DATA}dataFromRatingSite{at}/RatingSite{at}"


def country(name):
    return f"http://www.shop.example/countries#{name}"


class Text:
    """A literal, with a language or ""."""

    def __init__(self, form, language):
        self.form, self.language = form, language


class Writer:
    """Draws texts, and writes statements."""

    def __init__(self, draw, words):
        self.draw, self.words = draw, words

    def text(self, least, most, language=""):
        """Returns a text of so many words: of a few of them often. Without a language it has English words."""
        words, draw = self.words[language or "en"], self.draw.next
        count, bound = self.draw.between(least, most), len(words)
        return Text(" ".join([words[int(draw() * draw() * bound)] for _ in range(count)]), language)

    def label_and_comment(self, least, most):
        return [(RDFS + "label", self.text(1, 3)), (RDFS + "comment", self.text(least, most))]

    def named(self, subject, kind, publisher, links):
        """Returns the statements of a subject: its kind, its links, who published it, and when."""
        every = [(RDF + "type", kind), *links, (DC + "publisher", publisher), (DC + "date", self.draw.day())]
        return "".join(f"<{subject}> <{predicate}> {written(object)} .\n" for predicate, object in every)


def written(term):
    if isinstance(term, int):
        return f'"{term}"^^<{INTEGER}>'
    if isinstance(term, str):
        return f"<{term}>"
    return f'"{term.form}"@{term.language}' if term.language else f'"{term.form}"'


def main(triples=1_000_000, seed=1):
    out = open(1, "w", encoding="utf-8", newline="\n", closefd=False)
    with out:
        out.writelines(Shop(int(triples), int(seed)).quads())


if __name__ == "__main__":
    main(*sys.argv[1:])
