"""Reads the written grammar of tools/grammar.txt, and finds what a predictive parser has to know of it.

The file has a part on each line, `Part = alternative | alternative`. The words of an alternative are parts, actions (`@name`)
and tokens. `~` is the alternative of no words; behind it `!k` names a token before which the alternative isn't taken. `~~`
is the token `~`, `BAR` the token `|`, and `CLOSE` what closes a list of types.
"""
from dataclasses import dataclass

# The numbers that have a meaning of their own for the parser (crates/sp_parser/src/symbol.rt).
GREATER, SHIFT, SECOND, CLOSE, END = 120, 121, 122, 123, 124

# The parts with which texts begin (crates/sp_grammar/specs/Starts.antt).
STARTS = ["Module", "TypeTree", "Stmt", "Expr"]


@dataclass(frozen=True)
class Token:
    name: str


@dataclass(frozen=True)
class Part:
    name: str


@dataclass(frozen=True)
class Action:
    name: str


@dataclass
class Production:
    part: str
    symbols: list
    avoided: list  # the names of the tokens before which it isn't taken


class Grammar:
    """The parts, in the order of their numbers, the productions, and the numbers of tokens and actions."""

    def __init__(self, path):
        lines = [line.rstrip("\n").split(" = ", 1) for line in open(path) if line.strip()]
        self.parts = [part for part, _ in lines]
        self.productions = [
            self.production(part, ["|" if word == "BAR" else word for word in alternative.split(" ")])
            for part, alternatives in lines
            for alternative in alternatives.split(" | ")
        ]
        self.tokens = self.token_numbers()
        self.actions = in_order(s.name for p in self.productions for s in p.symbols if isinstance(s, Action))

    def production(self, part, words):
        is_empty = words[0] == "~"
        avoided = [word[1:] for word in words if is_empty and word.startswith("!")]
        read = [word for word in words if word != "~" and word[1:] not in avoided] if is_empty else words
        return Production(part, [self.symbol(word) for word in read], avoided)

    def symbol(self, word):
        if word.startswith("@"):
            return Action(word[1:])
        return Part(word) if word in self.parts else Token("~" if word == "~~" else word)

    def token_numbers(self):
        names = in_order(s.name for p in self.productions for s in p.symbols if isinstance(s, Token))
        named = [name for name in names if name not in ("CLOSE", ">", ">>")]
        assert len(named) < GREATER, "too many kinds of tokens"
        return {**{name: number for number, name in enumerate(named)}, ">": GREATER, ">>": SHIFT}

    def of(self, part):
        return [p for p in self.productions if p.part == part]

    def avoided(self, production):
        return {self.tokens[name] for name in production.avoided}

    def taken_by(self, token):
        """The kinds of tokens that this one takes."""
        return {GREATER, SHIFT, SECOND} if token.name == "CLOSE" else {self.tokens[token.name]}


def in_order(names):
    return list(dict.fromkeys(names))


class Facts:
    """What the parser's certificate says of each part: whether it can be empty, with which kinds of tokens it begins and
    what may stand behind it, how many steps it can take before a token, and by which production it ends soonest."""

    def __init__(self, grammar):
        self.grammar = grammar
        self.empty = dict.fromkeys(grammar.parts, False)
        self.first = {part: set() for part in grammar.parts}
        self.follow = {part: {END} if part in STARTS else set() for part in grammar.parts}
        self.weight = dict.fromkeys(grammar.parts, 0)
        self.height = {}  # of the part's lowest tree
        self.best = {}  # the place of the production of that tree
        for step in (self.begin, self.go_on, self.weigh, self.end):
            self.until_nothing_changes(step)
        self.check()

    def until_nothing_changes(self, step):
        for _ in range(1000):
            if not any([step(p) for p in self.grammar.productions]):
                return
        raise SystemExit("the grammar is left-recursive")

    def firsts(self, symbols, behind):
        """The kinds with which the symbols begin, where these kinds may stand behind them."""
        kinds = set(behind)
        for s in reversed(symbols):
            if isinstance(s, Token):
                kinds = self.grammar.taken_by(s)
            elif isinstance(s, Part):
                kinds = self.first[s.name] | (kinds if self.empty[s.name] else set())
        return kinds

    def can_be_empty(self, symbols):
        return all(isinstance(s, Action) or (isinstance(s, Part) and self.empty[s.name]) for s in symbols)

    def steps(self, symbols):
        """How many steps the symbols can take before a token."""
        steps = 0
        for s in reversed(symbols):
            if isinstance(s, Token):
                steps = 1
            elif isinstance(s, Action):
                steps += 1
            else:
                steps = self.weight[s.name] + (steps if self.empty[s.name] else 0)
        return steps

    def select(self, production):
        """The kinds before which the production is predicted."""
        return self.firsts(production.symbols, self.follow[production.part]) - self.grammar.avoided(production)

    def begin(self, p):
        before = (self.empty[p.part], set(self.first[p.part]))
        self.empty[p.part] = self.empty[p.part] or self.can_be_empty(p.symbols)
        self.first[p.part] |= self.firsts(p.symbols, set())
        return before != (self.empty[p.part], self.first[p.part])

    def go_on(self, p):
        changed = False
        for i, s in enumerate(p.symbols):
            if isinstance(s, Part):
                kinds = self.firsts(p.symbols[i + 1 :], self.follow[p.part])
                changed = changed or not kinds <= self.follow[s.name]
                self.follow[s.name] |= kinds
        return changed

    def weigh(self, p):
        before = self.weight[p.part]
        self.weight[p.part] = max(before, self.steps(p.symbols) + 1)
        return before != self.weight[p.part]

    def end(self, p):
        parts = [s.name for s in p.symbols if isinstance(s, Part)]
        if p.avoided or any(name not in self.height for name in parts):
            return False
        height = 1 + max([self.height[name] for name in parts], default=0)
        if height >= self.height.get(p.part, height + 1):
            return False
        self.height[p.part] = height
        self.best[p.part] = self.grammar.of(p.part).index(p)
        return True

    def check(self):
        """Each part ends, and before no kind of token two productions of one part are predicted."""
        for part in self.grammar.parts:
            assert part in self.height, f"{part} never ends"
            seen = set()
            for p in self.grammar.of(part):
                assert not self.select(p) & seen, f"two alternatives of {part} begin alike"
                seen |= self.select(p)
