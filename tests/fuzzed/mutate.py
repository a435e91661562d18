"""Mutants of a case: bytes, words and lines of its files that are changed, cut, spliced and repeated, and words of its command line."""

import re

from corpus import FILES, LARGEST, Case, files_of, named, names, ports
from gentle import gentle

# Words that each format knows, and some that stand at an edge of it.
WORDS = [
    b".subckt .ends .global .model .param .option .temp .end .include .inc .lib .connect .macro .eom .tran .SUBCKT nmos pmos nmos( pmos(level=1) "
    b"m1 M2 x1 X2 c1 r1 / params: w=1u a=b = =x + +$x $ ; * p n vdd gnd 0 1 x1/y m x".split(),
    b".model .inputs .outputs .clock .names .latch .subckt .end .exdc .gate .attr re fe ah al as NIL 0 1 2 3 4 - -- 1- 0- 11 00 a=b o=x=y =x x= "
    b"\\ # q#m 0/q $false NIL=".split(),
    b"scale supply device strength clock phase clockport defaultclock pair port hold keeper match enter observe assume 0 1 2 3 4 5 6 7 8 9 05 10 14 15 16 n p - * ! !q "
    b"q#m 0/q x1:q x1: :q x1/x2:q phi=0 phi=1 =1 all & | ^ ( ) !! a&b (a|b)^!c ((a)) !(a) a& ()".split(),
    b"module endmodule input output wire assign and nand or nor xor xnor buf not reg inout tri supply0 parameter always specify bufif1 primitive "
    b"1'b0 1'b1 1'h0 'b0 1'bx 1 ( ) , ; . = ? : ~ & ^ | ~& ~| ~^ ^~ && || ! == # [ ] { } @ \" \\a \\ \\and \\1'b0 // /* */ (* *) (*) /*/ a$b _ "
    b"`timescale `celldefine `endcelldefine `default_nettype `define `ifdef .a .a() .a(1'b0) begin signed".split(),
]
CARDS = [
    b"m# @ @ @ gnd n|m# @ @ @ vdd p|m# @ @ @ @ @|x# @ @ @ @|x# @ @ / @|.subckt @ @ @ @|.ends|.ends @|.global @|.model @ nmos|.model @ pmos|"
    b".param @=1|.end|+ @|+|* @|c# @ @ 1f|r# @ @ 100|; @|$ @|.include @|m# @ vdd @ gnd n|m# @ gnd @ vdd p|x# @ @".split(b"|"),
    b".model @|.inputs @ @|.outputs @|.clock @|.names @ @|.names @ @ @|.names @|0 1|1 1|11 1|0 0|1|0|-1 1|1- 1|.latch @ @ re @ 3|"
    b".latch @ @ fe @ 0|.latch @ @ ah @|.latch @ @ al NIL 2|.latch @ @|.subckt @ @=@ @=@|.subckt @ @=@|.end|# @|\\|.names @ @\\|.exdc".split(b"|"),
    b"scale 8|scale 16|supply 0 @|supply 1 @|device @ n|device @ p 4|strength @ @ 4|strength @ @ 12|strength @ @ 7|clock @|phase @ @=0|phase @ @=1 @=0|clockport @ @ @|"
    b"clockport @ @ !@|defaultclock @|pair @ -|pair @ @|port @ @ @|hold @ @|hold @ @ 3|keeper @ @ @|match @ @ @|match @ @ !@|match @ @:@ @|"
    b"enter @ @ @ 0|enter @ @ @ 1|observe @ @ @|assume @ @ @|assume @ * @ ^ @|assume @ * !(@ & @) \\| @|assume @ all @&@|# @".split(b"|"),
    b"module @ (@, @);!module @ (input @, @, output @);!module @;!endmodule!input @;!input @, @;!output @;!output wire @;!wire @, @;!assign @ = @;!"
    b"assign @ = ~@ & @;!assign @ = @ ^ (@ | @);!assign @ = @ ? @ : @, @ = 1'b0;!and (@, @, @);!nand g# (@, @, @);!or (@, @ & @, 1'b1);!nor (@, @);!"
    b"xor (@, @, @, @);!xnor (@, @);!buf (@, @, @);!not (@, @), (@, ~@);!@ u# (.@(@), .@(@));!@ u# (.@(), .@(1'b1));!// @!/* @!*/!(* @ *)!`celldefine!"
    b"`timescale 1ns/1ps!`define @!assign @ = @ && @;!reg @;".split(b"!"),
]
NUMBERS = "0 1 2 3 4 7 8 15 16 17 32 33 63 64 65 99 255 256 999 1000 1001 4095 4096 4097 20000 20001 40000 40001 65535 65536 65537 100000 200001 \
2147483647 2147483648 4294967295 4294967296 9223372036854775807 18446744073709551615 18446744073709551616 -1 00 01 1e9 0x10 99999999999999999999".split()
LENGTHS = [1, 13, 14, 15, 16, 17, 31, 63, 64, 255, 256, 1000, 4095, 4096, 4097, 20000]
OPTIONS = ["--do", "--cell", "--phase", "--at", "--budget", "--size", "--rise", "--help", "-h", "--version", "-V", "--", "-", "--do=", "--budget=65536", "--x", "", "a"]


class Mutator:
    """Makes mutants of cases, by numbers that are drawn."""

    def __init__(self, draw, cases):
        self.draw = draw
        self.cases = cases
        self.names = [b"a"]
        self.has_modules = False  # whether the models are modules of Verilog

    def some(self, most):
        """A number from 1 on, small ones far more often."""
        count = 1
        while count < most and self.draw.random() < 0.6:
            count += self.draw.choice((1, 1, 2, 5))
        return min(count, most)

    def piece(self, text):
        """Where a piece of a text begins and ends, often a short one."""
        if not text:
            return 0, 0
        at = self.draw.randrange(len(text) + 1)
        return at, min(len(text), at + (self.some(30) if self.draw.random() < 0.8 else self.draw.randrange(len(text) + 1)))

    def format_of(self, place):
        """The format of the file of a place, among those of which words and cards are known."""
        return 3 if place == 1 and self.has_modules else place

    def token(self, place):
        """A word: a name of the case, a word of the format, a number, a long one, or any bytes."""
        kind = self.draw.random()
        if kind < 0.6:
            return self.draw.choice(self.names)
        if kind < 0.85:
            return self.draw.choice(WORDS[self.format_of(place)])
        if kind < 0.93:
            return self.draw.choice(NUMBERS).encode()
        if kind < 0.96:
            return self.draw.choice(self.names)[:1] * self.draw.choice(LENGTHS)
        if kind < 0.98:
            return self.draw.choice(self.names) + self.draw.choice((b"!", b"=", b":", b"/", b"#m", b"$", b"\\", b"<0>", b"[1]", b"1"))
        return bytes(self.draw.randrange(256) for _ in range(self.some(8)))

    def card(self, place):
        """A card of the format, with names of the case."""
        form = self.draw.choice(CARDS[self.format_of(place)]).replace(b"#", b"%d" % self.draw.randrange(90))
        return re.sub(b"@", lambda _: self.token(place) if self.draw.random() < 0.2 else self.draw.choice(self.names), form)

    def bytes_changed(self, text, place):
        """A text with a piece that is changed, put in, taken out, said again, or of which all behind is cut."""
        start, end = self.piece(text)
        kind = self.draw.randrange(7)
        if kind == 0:
            return text[:start] + bytes([self.draw.choice((0, 9, 10, 11, 12, 13, 26, 32, 127, 128, 255, self.draw.randrange(256)))]) + text[start + 1 :]
        if kind == 1:
            return text[:start] + bytes(self.draw.randrange(256) for _ in range(self.some(12))) + text[start:]
        if kind == 2:
            return text[:start] + text[end:]
        if kind == 3:
            return text[:end] + text[start:end] * self.some(9) + text[end:]
        if kind == 4:
            return text[:start]
        if kind == 5:
            other, last = self.piece(text)
            return text[:start] + text[other:last] + text[end:]
        return text[:start] + self.token(place) + text[end:]

    def words_changed(self, text, place):
        """A text of which a word is put in place of another, taken out, said twice, or changed for one next to it."""
        words = list(re.finditer(rb"[^ \t\r\n=:!/&|^()]+", text))
        if not words:
            return self.card(place) + b"\n"
        word, other = self.draw.choice(words), self.draw.choice(words)
        start, end = word.span()
        kind = self.draw.random()
        if kind < 0.45:
            return text[:start] + self.token(place) + text[end:]
        if kind < 0.7:
            return text[:start] + other.group() + text[end:]
        if kind < 0.8:
            return text[:start] + text[end:]
        if kind < 0.9:
            return text[:end] + b" " + self.token(place) + text[end:]
        return text.replace(word.group(), self.token(place))

    def lines_changed(self, text, place):
        """A text of which lines are taken out, said again, moved, spliced from another case, or of which a card is put in."""
        lines = text.split(b"\n")
        at = self.draw.randrange(len(lines))
        kind = self.draw.randrange(9)
        if kind <= 2:
            lines.insert(at, self.card(place))
        elif kind == 3:
            del lines[at : at + self.some(6)]
        elif kind == 4:
            lines[at:at] = [lines[at]] * self.some(20)
        elif kind == 5:
            lines.insert(at, lines.pop(self.draw.randrange(len(lines))))
        elif kind == 6:
            other = self.draw.choice(self.cases).texts[place].split(b"\n")
            start = self.draw.randrange(len(other))
            lines[at:at] = other[start : start + self.some(40)]
        elif kind == 7:
            other = self.draw.choice(self.cases).texts[place].split(b"\n")
            lines[at:] = other[self.draw.randrange(len(other)) :]
        else:
            self.draw.shuffle(lines)
        return b"\n".join(lines)

    def grown(self, text, place):
        """A text with a line said many times, each time with numbers in its words, or with lines that lead on from one to the next."""
        lines = text.split(b"\n")
        at = self.draw.randrange(len(lines))
        line = lines[at] if lines[at] and self.draw.random() < 0.6 else self.card(place)
        words = line.split()
        if not words:
            return text
        count = min(self.draw.choice((3, 20, 33, 100, 1000, 4097)), max(1, LARGEST // 2 // (len(line) + 10)))
        first = b"m" if place == 0 and words[0][:1].lower() == b"m" else words[0]
        chosen = {self.draw.randrange(len(words)) for _ in range(3)}
        made = []
        for number in range(count):
            copy = [word + (b"%d" % (number + (i == min(chosen)))) if i in chosen and i else word for i, word in enumerate(words)]
            copy[0] = b"%s%d" % (words[0], number + 100) if place == 0 and words[0][:1].lower() in b"mx" else first
            made.append(b" ".join(copy))
        lines[at : at + 1] = made
        return b"\n".join(lines)

    def changed(self, text, place):
        """A text with one change."""
        kind = self.draw.random()
        if kind < 0.35:
            return self.words_changed(text, place)
        if kind < 0.72:
            return self.lines_changed(text, place)
        if kind < 0.95:
            return self.bytes_changed(text, place)
        if kind < 0.99:
            return self.grown(text, place)
        return text.replace(b"\n", self.draw.choice((b"\r\n", b"\r", b"", b" ", b"\n\n", b"\n+ ", b"\\\n")))

    def asked(self, texts):
        """The words of a run in some mode, over names that the files have; now and then words that do not fit."""
        cells = named(texts[0], b".subckt") or [b"a"]
        phases = named(texts[2], b"phase") or [b"all"]
        kind = self.draw.random()
        text = lambda name: name.decode("latin-1").replace("\0", "")
        if kind < 0.54:
            words = ["--budget", "65536"] + (["--cell", text(self.draw.choice(cells))] if self.draw.random() < 0.15 else [])
        elif kind < 0.62:
            words = ["--do", "classes"] + (["--cell", text(self.draw.choice(cells))] if self.draw.random() < 0.3 else [])
        elif kind < 0.8:
            phases = phases + ([b"all"] if self.draw.random() < 0.1 else [])
            bits = ",".join(f"{text(self.draw.choice(self.names))}={self.draw.choice('01')}" for _ in range(self.draw.choice((0, 0, 1, 1, 2, 9))))
            words = ["--do=replay", "--cell", text(self.draw.choice(cells)), "--phase", text(self.draw.choice(phases)), "--at", bits]
        elif kind < 0.89:
            cell = self.draw.choice(cells)
            known = ports(texts[0], cell) if self.draw.random() < 0.8 else self.names
            rising = self.draw.sample(known, min(len(known), self.draw.choice((1, 1, 1, 2, 3, 9))))
            words = ["--do=arrive", "--cell", text(cell), "--phase", text(self.draw.choice(phases)), f"--rise={text(b','.join(rising))}"]
        elif kind < 0.98:
            words = ["--do=blif", "--cell", text(self.draw.choice(cells))]
        else:
            return ["--do", "gen", "--budget=65536", "--size", self.draw.choice(NUMBERS)]
        return words + files_of(texts)

    def words_spoilt(self, words):
        """The words with some that do not fit."""
        words = list(words)
        for _ in range(self.some(3)):
            at = self.draw.randrange(len(words) + 1)
            kind = self.draw.randrange(4)
            if kind == 0:
                words.insert(at, self.draw.choice(OPTIONS))
            elif kind == 1:
                words.insert(at, self.draw.choice(NUMBERS))
            elif kind == 2:
                del words[at : at + 1]
            else:
                words[at : at + 1] = [self.token(2).decode("latin-1").replace("\0", "")]
        return words

    def mutant(self, case):
        """A case with some changes, most of them in one of its files."""
        texts = list(case.texts)
        self.names = names(texts) or [b"a"]
        self.has_modules = files_of(texts) != FILES
        if self.draw.random() < 0.05:
            other = self.draw.choice(self.cases)
            place = self.draw.randrange(3)
            texts[place] = other.texts[place]
        mild = self.draw.random()
        for _ in range(self.some(12) if mild < 0.8 else 0):
            texts = [text[: LARGEST - 1] for text in gentle(texts, self.draw)]
        for _ in range(self.some(12) if mild > 0.6 else 0):
            place = self.draw.choice((0, 0, 0, 1, 1, 2, 2, 2))
            texts[place] = self.changed(texts[place], place)[: LARGEST - 1]
        words = self.asked(texts)
        if self.draw.random() < 0.03:
            words = self.words_spoilt(words)
        return Case(words, texts)
