"""`uca book`: the image of a book under the map of level 1 of a certificate."""
from helps import said
from program import ProgramTest

# What a certificate has of levels 2 and 3 at least.
LEAST = "2 0020 0020 0001\n3 0002 0002 0001\n"

# 1C47 to 1C5F become 1C50 to 1C68, and 1C60 to 1C6F become 1C80 to 1C8F.
MOVING = "1 1C47 1C50 0019\n1 1C60 1C80 0010\n"

# Nothing comes between 0010 to 001F and what was 0030 to 003F.
CLOSING = "1 0010 0010 0010\n1 0030 0020 0010\n"

# The runs of level 1 of a certificate, the starts of a book, and those of its image, worked out by hand.
IMAGES = [
    # each start has an image
    (MOVING, "1 1C47\n1 1C48\n1 1C60\n4 1C48\n4 1C60\n", "1 1C50\n1 1C51\n1 1C80\n4 1C51\n4 1C80\n"),
    # there is no start
    (MOVING, "", ""),
    # 1C46 has no image, nor has a weight below it. 1C70 has none, and the last one below it is 1C8F. So it is with 7FFF: its
    # weight would be 1C90, but this is taken at level 1. From 8000 up each weight stays.
    (MOVING, "1 1C46\n1 1C47\n1 1C70\n1 7FFF\n4 7FFF\n4 8000\n", "1 0002\n1 1C50\n1 1C90\n1 1C91\n4 1C90\n4 8000\n"),
    # a certificate without weights of level 1
    ("", "1 0002\n1 7FFF\n1 8000\n1 FFFF\n4 FFFE\n", "1 0002\n1 0003\n1 8000\n1 FFFF\n4 FFFE\n"),
    # the last weight that a map can give, and a start that goes up from there
    ("1 0010 7FFF 0001\n", "1 0010\n1 0011\n1 8000\n", "1 7FFF\n1 8000\n1 8001\n"),
    # nothing is left of the cell 0020 to 002F
    (CLOSING, "1 0010\n1 0020\n1 0030\n1 0031\n1 0032\n", "1 0010\n1 0020\n1 0021\n1 0022\n1 0023\n"),
]

BOOK = "@book 1\n1 1C47\n1 1C48\n1 1C60\n4 0209\n4 020A\n"

# Options, a key, its image, and the compact key of the first by BOOK. The second has it by the image of BOOK.
KEYS = [
    ("--weighting non-ignorable", "1C47 0000 0020 0000 0002\n", "1C50 0000 0020 0000 0002\n", "0802\n"),
    ("", "1C47 0000 0020 0000 0002 0000 FFFF\n", "1C50 0000 0020 0000 0002 0000 FFFF\n", "0A03\n"),
    # 1C4A is 2 above 1C48, and its image 1C53 is 2 above 1C51: both have one byte for that
    ("--weighting non-ignorable", "1C47 1C4A 0000 0020 0020 0000 0002 0002\n", "1C50 1C53 0000 0020 0020 0000 0002 0002\n", "08090202\n"),
    # the last cell has two bytes for an offset, before and after
    ("--weighting non-ignorable", "1C62 0000 0020 0000 0002\n", "1C82 0000 0020 0000 0002\n", "0A000202\n"),
    # the cell of 0209 at level 4 begins there before and after
    ("", "1C47 1C47 0000 0020 0020 0000 0002 0002 0000 FFFF 0209 FFFF\n", "1C50 1C50 0000 0020 0020 0000 0002 0002 0000 FFFF 0209 FFFF\n", "0A0A02030102\n"),
]


class Images(ProgramTest):
    def setUp(self):
        super().setUp()
        self.write(c=MOVING + LEAST, k=BOOK)

    def test_images(self):
        for runs, starts, image in IMAGES:
            self.write(c=runs + LEAST, k="@book 1\n" + starts)
            self.expect("book c k", out="@book 1\n" + image)
        # the image of an image, and the input is not read
        self.write(c=CLOSING + LEAST, k="@book 1\n1 0010\n1 0020\n1 0021\n")
        self.expect("book c k", b"\xff", out="@book 1\n1 0010\n1 0020\n1 0021\n")

    def test_a_full_book(self):
        letters, variables = range(0x1C47, 0x1C47 + 245), range(0x2000, 0x2000 + 255)
        self.write(k="@book 1\n" + "".join(f"1 {it:04X}\n" for it in letters) + "".join(f"4 {it:04X}\n" for it in variables))
        # 1C47 to 1C5F go up by 9, 1C60 to 1C6F by 20, and each later one comes directly after the one before it
        images = [it + 9 if it < 0x1C60 else it + 0x20 for it in letters]
        # no weight from 2000 on has an image: the first comes after 1C8F, and each later one after that
        after = range(0x1C90, 0x1C90 + 255)
        self.expect("book c k", out="@book 1\n" + "".join(f"1 {it:04X}\n" for it in images) + "".join(f"4 {it:04X}\n" for it in after))

    def test_keys_that_stay(self):
        """Mended keys have the compact keys that they had, if their weights keep their places."""
        self.write(c="1 0209 0209 0001\n" + MOVING + LEAST)
        self.write(n=self.run_uca("book", "c", "k").out)
        self.assertEqual(self.read("n"), b"@book 1\n1 1C50\n1 1C51\n1 1C80\n4 0209\n4 020A\n")
        for options, key, new_key, compact in KEYS:
            self.expect(f"compact {options} k", key, out=compact)
            self.expect(f"rekey {options} c", key, out=new_key)
            self.expect(f"compact {options} n", new_key, out=compact)

    def test_rejected_files(self):
        """The certificate is read first, and nothing is printed."""
        for certificate, said in ("", "line 1: Map Fixed"), ("1 1C47 1C50 0\n", "line 1: Line"), ("1 1C47 1C50 0000\n" + LEAST, "line 1: Map Empty"), ("2 0020 0020 0001\n1 1C47 1C50 0001\n", "line 2: Order"):
            self.write(x=certificate)
            for book in "k", "x":
                self.expect(f"book x {book}", status=1, err=f"certificate {said}\n")
        for book, said in ("", "line 1: Order"), ("@book 1\n1 1c47\n", "line 2: Weight"), ("@book 1\n4 1C47\n1 1C47\n", "line 3: Order"), (BOOK + "4 020B", "line 7: Line"):
            self.write(x=book)
            self.expect("book c x", status=1, err=f"book {said}\n")

    def test_files_and_streams(self):
        self.expect("book missing k", status=3, err="certificate: Open\n")
        self.expect("book missing other", status=3, err="certificate: Open\n")
        self.expect("book c missing", status=3, err="book: Open\n")
        self.expect("book . k", status=3, err="certificate line 1: Read\n")
        self.expect("book c .", status=3, err="book line 1: Read\n")
        with open("/dev/full", "wb") as full:
            ended = self.run_uca("book", "c", "k", stdout=full)
        self.assertEqual((ended.status, ended.err), (3, said("output: Write\n")))
