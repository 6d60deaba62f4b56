#!/usr/bin/env python3
"""Writes what is made of the grammar in tools/grammar.txt into the folder of the crate sp_grammar, or into another one.

usage: tools/table.py FOLDER

Each file has a function of its own below, which answers its whole text; FILES names them all.
"""
import re
import sys
from pathlib import Path

from grammar import CLOSE, SECOND, Facts, Grammar, Action, Part, Token

PUNCTUATION = {
    "::": "ColonColon", ":": "Colon", ";": "Semicolon", ",": "Comma", ".": "Dot", "?.": "QuestionDot", "?": "Question",
    "(": "LeftParen", ")": "RightParen", "[": "LeftBracket", "]": "RightBracket", "{": "LeftBrace", "}": "RightBrace",
    "->": "Arrow", "..": "DotDot", "$$": "DollarDollar", "=": "Equal", "+=": "PlusEqual", "-=": "MinusEqual",
    "==": "EqualEqual", "!=": "NotEqual", "<": "Less", "<=": "LessEqual", ">": "Greater", ">=": "GreaterEqual",
    "<<": "ShiftLeft", ">>": "ShiftRight", "+": "Plus", "-": "Minus", "*": "Star", "/": "Slash", "%": "Percent",
    "&": "Ampersand", "|": "Bar", "^": "Caret", "~": "Tilde", "!": "Bang", "&&": "AndAnd", "||": "OrOr", "!in": "NotIn",
}

# the kinds of tokens that aren't one reserved word, punctuation or property: their names, and what is said of them
KINDS = {
    "ID": ("Id", "A name."),
    "NUM": ("Number", "A number."),
    "STRING": ("String", "A string literal."),
    "BYTES": ("Bytes", "A bytes literal."),
    "REGEX": ("Regex", "A regular expression."),
    "INT": ("IntWord", "The word of an integer type."),
    "ATTR": ("Attribute", "An attribute other than `&priority`."),
    "HOOK": ("Hook", "The name of a hook, as `%init`."),
    "&priority": ("Priority", "`&priority`"),
    "skip": ("Skip", "`skip`, a word out of profile that names a member."),
}

# what is said of the kinds of tokens that are one reserved word, punctuation or property
WORDS = {"Keyword": "A reserved word.", "Punctuation": "Punctuation, a bracket or an operator.", "Property": "A property."}

# the actions that build an operation: the variant of the action, the enum of its operators, and the operator
OPERATIONS = {
    "or": ("Binary", "BinaryOp", "Or"),
    "and": ("Binary", "BinaryOp", "And"),
    "in": ("Binary", "BinaryOp", "In"),
    "not_in": ("Binary", "BinaryOp", "NotIn"),
    "equal": ("Binary", "BinaryOp", "Equal"),
    "not_equal": ("Binary", "BinaryOp", "NotEqual"),
    "less": ("Binary", "BinaryOp", "Less"),
    "less_equal": ("Binary", "BinaryOp", "LessEqual"),
    "greater": ("Binary", "BinaryOp", "Greater"),
    "greater_equal": ("Binary", "BinaryOp", "GreaterEqual"),
    "bit_or": ("Binary", "BinaryOp", "BitOr"),
    "bit_xor": ("Binary", "BinaryOp", "BitXor"),
    "bit_and": ("Binary", "BinaryOp", "BitAnd"),
    "shift_left": ("Binary", "BinaryOp", "ShiftLeft"),
    "shift_right": ("Binary", "BinaryOp", "ShiftRight"),
    "add": ("Binary", "BinaryOp", "Add"),
    "subtract": ("Binary", "BinaryOp", "Subtract"),
    "multiply": ("Binary", "BinaryOp", "Multiply"),
    "divide": ("Binary", "BinaryOp", "Divide"),
    "remainder": ("Binary", "BinaryOp", "Remainder"),
    "not": ("Unary", "UnaryOp", "Not"),
    "negate": ("Unary", "UnaryOp", "Negate"),
    "complement": ("Unary", "UnaryOp", "Complement"),
    "set_stmt": ("Assign", "AssignOp", "Set"),
    "add_to_stmt": ("Assign", "AssignOp", "Add"),
    "subtract_from_stmt": ("Assign", "AssignOp", "Subtract"),
}

# how contracts call the operators of each enum
OPERATOR_IMPORTS = "".join(
    f"use Rattle.sp_words.specs.declared.operators.{enum}.TheVariants as {variant.lower()}\n"
    for variant, enum in (("Binary", "BinaryOp"), ("Unary", "UnaryOp"), ("Assign", "AssignOp"))
)

# how contracts call the reserved words, punctuation and properties
WORD_IMPORTS = """\
use Rattle.sp_words.specs.declared.keywords.Keyword.TheVariants as keyword
use Rattle.sp_words.specs.declared.punctuation.Punctuation.TheVariants as punctuation
use Rattle.sp_words.specs.declared.words.Property.TheVariants as property
"""


def camel(words):
    """`local_stmt` as `LocalStmt`."""
    return "".join(word[:1].upper() + word[1:] for word in re.split("[-_]", words))


def action_variant(action):
    """The variant of the action, with the enum of its operators."""
    if action in OPERATIONS:
        variant, enum, _ = OPERATIONS[action]
        return f"{variant}({enum})"
    return camel(action)


def action_in_code(action):
    if action in OPERATIONS:
        variant, enum, operator = OPERATIONS[action]
        return f"Action::{variant}({enum}::{operator})"
    return f"Action::{camel(action)}"


def action_name(action):
    """What tests call the action."""
    if action in OPERATIONS:
        variant, _, operator = OPERATIONS[action]
        return f"Assign({operator})" if variant == "Assign" else operator
    return camel(action)


def action_in_contracts(action):
    if action in OPERATIONS:
        variant, _, operator = OPERATIONS[action]
        return f"(build.{variant} {variant.lower()}.{operator})"
    return f"build.{camel(action)}"


def terminal_parts(token):
    """The variant of a kind of token, and the reserved word, punctuation or property that it is, if it is one."""
    if token in KINDS:
        return KINDS[token][0], None
    if token in PUNCTUATION:
        return "Punctuation", PUNCTUATION[token]
    if token.startswith("%"):
        return "Property", camel(token[1:])
    return "Keyword", "Itself" if token == "self" else camel(token)


def terminal_in_code(token):
    variant, word = terminal_parts(token)
    return f"Terminal::{variant}({variant}::{word})" if word else f"Terminal::{variant}"


def terminal_in_contracts(token):
    variant, word = terminal_parts(token)
    return f"(kind.{variant} {variant.lower()}.{word})" if word else f"kind.{variant}"


def terminal_variants(g):
    """The variants of the kinds of tokens, each with what is said of it."""
    for _, token in terminals(g):
        variant, word = terminal_parts(token)
        yield (f"{variant}({variant})", WORDS[variant]) if word else (variant, KINDS[token][1])


def antt_list(items):
    return " ∷ ".join([*items, "[]"])


def bits(kinds):
    """A set of kinds of tokens as a number, by its bits."""
    return sum(1 << kind for kind in kinds)


def lines_of(items, on_a_line, start):
    """The items, so many on a line, each with a comma behind it."""
    rows = [items[i : i + on_a_line] for i in range(0, len(items), on_a_line)]
    return "".join(start + ", ".join(row) + ",\n" for row in rows)


def terminals(g):
    """The kinds of tokens by their numbers: number and token."""
    return sorted((number, token) for token, number in g.tokens.items())


TABLES = """\
// The table of the grammar, which a script writes from tools/grammar.txt.
use sp_parser::Symbol::{Action, Nonterminal, Terminal};
use sp_parser::{Row, Span, Symbol};

/// The right sides of the productions, one after another.
#[rattlefmt::skip]
pub static SYMBOLS: [Symbol; %d] = [
%s];

/// The productions.
#[rattlefmt::skip]
pub static ROWS: [Row; %d] = [
%s];

/// The nonterminals.
#[rattlefmt::skip]
pub static SPANS: [Span; %d] = [
%s];
"""


def table_symbol(g, s):
    if isinstance(s, Token):
        return f"Terminal({CLOSE if s.name == 'CLOSE' else g.tokens[s.name]})"
    if isinstance(s, Part):
        return f"Nonterminal({g.parts.index(s.name)})"
    return f"Action({g.actions.index(s.name)})"


def tables(g, facts):
    """The table in the code: all symbols, the productions as stretches of them, and the parts as stretches of those."""
    symbols, rows, spans = [], "", ""
    count = 0
    for part in g.parts:
        first = count
        for p in g.of(part):
            words = " ".join(("@" if isinstance(s, Action) else "") + s.name for s in p.symbols) or "nothing"
            select, avoid = hex(bits(facts.select(p))), hex(bits(g.avoided(p)))
            end = len(symbols) + len(p.symbols)
            rows += f"    Row {{ select: {select}, avoid: {avoid}, from: {len(symbols)}, to: {end} }}, // {part} = {words}\n"
            symbols += [table_symbol(g, s) for s in p.symbols]
            count += 1
        spans += f"    Span {{ from: {first}, to: {count} }}, // {part}\n"
    return TABLES % (len(symbols), lines_of(symbols, 6, "    "), count, rows, len(g.parts), spans)


SETS = """\
-- The certificate of the grammar's table, which a script writes from tools/grammar.txt: first sets, follow sets and the like.
use Rattle.std.specs.Prelude.{[], ◌∷◌, true, false}
use Rattle.sp_parser.specs.Certificate.{Certificate}

abbrev pub sets : Certificate
sets = record {
%s}
"""


def sets(g, facts):
    """The certificate that the table is tested against."""
    rows = [
        ("first", lambda part: bits(facts.first[part])),
        ("follow", lambda part: bits(facts.follow[part])),
        ("nullable", lambda part: "true" if facts.empty[part] else "false"),
        ("weight", lambda part: facts.weight[part]),
        ("best", lambda part: facts.best[part]),
        ("height", lambda part: facts.height[part]),
    ]
    return SETS % "".join(f"  {name} = {antt_list(str(of(part)) for part in g.parts)};\n" for name, of in rows)


TERMINALS = """\
// The kinds of tokens that the grammar tells apart, which a script writes from tools/grammar.txt.
ghost use Rattle.std.specs.Prelude.{◌≡◌, ◌<◌};
ghost use Rattle.sp_grammar.specs.Terminals.{terminal_number};
ghost use Rattle.sp_parser.specs.Grammar.{SECOND};

use sp_words::{Keyword, Property, Punctuation};

/// A kind of token.
#[derive(Clone, Copy)]
pub enum Terminal {
%s}

impl Terminal {
    /// Its number in the table.
    #[tactic(auto, using(crate::specs::TerminalKinds::is_kind))]
    pub fn number(self) -> u8
        ensures number { result ≡ terminal_number self }
        ensures kind { result < SECOND }
    {
        match self {
%s        }
    }
}
%s"""

TERMINAL_TABLE = """
/// The numbers of the kinds of %s, in the order of their enum.
#[rattlefmt::skip]
static %s: [u8; %d] = [
%s];
"""


# the kinds of tokens whose numbers stand in a table by the word, sign or property that they are
TABLED = [
    ("Keyword", "keywords.rt", "keyword", "KEYWORDS", "reserved words"),
    ("Punctuation", "punctuation.rt", "sign", "SIGNS", "punctuation"),
    ("Property", "words.rt", "property", "PROPERTIES", "properties"),
]


def terminal_enum(g, _):
    """The kinds of tokens in the code."""
    variants = "".join(f"    /// {said}\n    {variant},\n" for variant, said in dict(terminal_variants(g)).items())
    numbers = {terminal_parts(token): number for number, token in terminals(g)}
    arms = "".join(
        f"            Terminal::{variant}({name}) => {table}[{name} as usize],\n" for variant, _, name, table, _ in TABLED
    ) + "".join(f"            Terminal::{variant} => {number},\n" for (variant, word), number in numbers.items() if not word)
    tables = "".join(
        TERMINAL_TABLE % (said, table, len(words), lines_of([str(numbers[variant, word]) for word in words], 16, "    "))
        for variant, file, _, table, said in TABLED
        for words in [words_of(file, variant)]
    )
    return TERMINALS % (variants, arms, tables)


def words_of(file, enum):
    """The words of an enum of sp_words, in its order."""
    text = Path(__file__).with_name("..").joinpath("crates/sp_words/src", file).read_text(encoding="utf-8")
    return re.findall(r"^    (\w+),$", text.split(f"pub enum {enum} {{")[1].split("\n}")[0], re.MULTILINE)


TERMINAL_NUMBERS = """\
-- The numbers of the kinds of tokens in the table.
use Rattle.std.specs.Prelude.{ℕ}
%suse Rattle.sp_grammar.specs.declared.terminals.Terminal.{Terminal}
use Rattle.sp_grammar.specs.declared.terminals.Terminal.TheVariants as kind

abbrev pub terminal_number : Terminal → ℕ
%s"""


def terminal_numbers(g, _):
    """Their numbers in contracts."""
    return TERMINAL_NUMBERS % (
        WORD_IMPORTS,
        "".join(f"terminal_number {terminal_in_contracts(token)} = {number}\n" for number, token in terminals(g)),
    )


TERMINAL_KINDS = """\
-- The numbers of terminals are kinds of tokens, by their cases, which a script writes from tools/grammar.txt.
use Rattle.std.specs.Prelude.{map}
use Rattle.std.proofs.Common.{◌<◌, List, [], ◌∷◌, lit<}
use Rattle.sp_parser.specs.Grammar.{AreKinds, SECOND}
%suse Rattle.sp_grammar.specs.declared.terminals.Terminal.{Terminal}
use Rattle.sp_grammar.specs.declared.terminals.Terminal.TheVariants as kind
use Rattle.sp_grammar.specs.Terminals.{terminal_number}

pub is_kind : (t : Terminal) → terminal_number t < SECOND
%s
pub terminals_are_kinds : (terminals : List Terminal) → AreKinds (map terminal_number terminals)
terminals_are_kinds [] = tt
terminals_are_kinds (t ∷ terminals) = (is_kind t, terminals_are_kinds terminals)
"""


def terminal_kinds(g, _):
    """That their numbers are below those with a meaning of their own."""
    return TERMINAL_KINDS % (
        WORD_IMPORTS,
        "".join(f"is_kind {terminal_in_contracts(token)} = lit< tt\n" for _, token in terminals(g)),
    )


ACTIONS = """\
// The actions of the grammar, which a script writes from tools/grammar.txt.
ghost use Rattle.std.specs.Prelude.{◌≡◌, IfSome, IfNone};
ghost use Rattle.sp_grammar.specs.Actions.{action_number, action_with};
ghost use Rattle.sp_grammar.specs.declared.actions.Action.{Action};

use sp_words::{AssignOp, BinaryOp, UnaryOp};

/// What is built where a derivation passes an action. `Begin` opens a tree. An action with the name of an alternative closes
/// it, or makes it of one token or of the trees before it; `Binary`, `Unary` and `Assign` make an operation by this operator.
#[derive(Clone, Copy)]
pub enum Action {
%s}

/// The actions in the order of their numbers.
#[rattlefmt::skip]
static ACTIONS: [Action; %d] = [
%s];

/// The action with a number in the table, if there is one.
pub fn action_of(number: u8) -> Option<Action>
    ensures named { result ≡ action_with number }
    ensures some { IfSome result (λ m. action_number m ≡ number) }
    ensures none { IfNone result ((m : Action) → ¬ (action_number m ≡ number)) }
{
    let place = number as usize;
    if place < ACTIONS.len() {
        Some(ACTIONS[place])
    } else {
        None
    }
}

/// Their names; those of operations between operands and before one are the operators'.
#[rattlefmt::skip]
static NAMES: [&str; %d] = [
%s];

/// The name of the action with a number in the table, empty if there is none.
pub fn action_name(number: u8) -> &'static str {
    let place = number as usize;
    if place < NAMES.len() {
        NAMES[place]
    } else {
        ""
    }
}
"""


def action_enum(g, _):
    """The actions in the code."""
    variants = dict.fromkeys(action_variant(action) for action in g.actions)
    names = [action_in_code(action) for action in g.actions]
    return ACTIONS % (
        "".join(f"    {variant},\n" for variant in variants),
        len(names),
        lines_of(names, 3, "    "),
        len(names),
        lines_of([f'"{action_name(action)}"' for action in g.actions], 4, "    "),
    )


ACTION_NUMBERS = """\
-- The numbers of the actions in the table.
use Rattle.std.specs.Prelude.{ℕ, List, [], ◌∷◌, Option, Some, None}
use Rattle.std.proofs.Common.{get_or}
use Rattle.std.specs.Prelude.{map}
%suse Rattle.sp_grammar.specs.declared.actions.Action.{Action}
use Rattle.sp_grammar.specs.declared.actions.Action.TheVariants as build

abbrev pub action_number : Action → ℕ
%s
-- the actions in the order of their numbers
abbrev pub all_actions : List Action
all_actions = %s

-- the action with a number, if there is one
abbrev pub action_with : ℕ → Option Action
action_with n = get_or (map Some all_actions) n None
"""


def action_numbers(g, _):
    """Their numbers in contracts."""
    names = [action_in_contracts(action) for action in g.actions]
    return ACTION_NUMBERS % (
        OPERATOR_IMPORTS,
        "".join(f"action_number {name} = {number}\n" for number, name in enumerate(names)),
        antt_list(names),
    )


PARTS = """\
-- The parts of the grammar by their numbers, and tokens, parts and actions as symbols, which a script writes from
-- tools/grammar.txt.
use Rattle.std.specs.Prelude.{ℕ, List, [], ◌∷◌}
use Rattle.sp_parser.specs.declared.symbol.Symbol.{Symbol}
use Rattle.sp_parser.specs.declared.symbol.Symbol.TheVariants as symbol
use Rattle.sp_parser.specs.Grammar.{CLOSE}
use Rattle.sp_grammar.specs.declared.terminals.Terminal.{Terminal}
use Rattle.sp_grammar.specs.declared.actions.Action.{Action}
use Rattle.sp_grammar.specs.Terminals.{terminal_number}
use Rattle.sp_grammar.specs.Actions.{action_number}

-- a part of the grammar
pub data Part : Type 0 where
%s
abbrev pub part_number : Part → ℕ
%s
-- the parts in the order of their numbers
abbrev pub all_parts : List Part
all_parts = %s

-- a token of this kind
abbrev pub kind : Terminal → Symbol
kind t = symbol.Terminal (terminal_number t)

-- what closes a list of types: a `>`, or a half of a `>>`
abbrev pub close : Symbol
close = symbol.Terminal CLOSE

abbrev pub part : Part → Symbol
part p = symbol.Nonterminal (part_number p)

-- the place at which this is built
abbrev pub action : Action → Symbol
action m = symbol.Action (action_number m)
"""


def parts(g, _):
    """The parts in contracts."""
    rows = [g.parts[i : i + 8] for i in range(0, len(g.parts), 8)]
    return PARTS % (
        "".join(f"  {' '.join(row)} : Part\n" for row in rows),
        "".join(f"part_number Part.{part} = {number}\n" for number, part in enumerate(g.parts)),
        antt_list(f"Part.{part}" for part in g.parts),
    )


NUMBERS = """\
-- Each kind of token, each part and each action has a number of its own, by their cases, which a script writes from
-- tools/grammar.txt.
use Rattle.std.proofs.Common.{◌≡◌, List, [], ◌∷◌, get_or, refl, sym, ap, ◌∙◌}
use Rattle.sp_parser.specs.Grammar.{productions_of}
%suse Rattle.sp_grammar.specs.declared.terminals.Terminal.{Terminal}
use Rattle.sp_grammar.specs.declared.terminals.Terminal.TheVariants as kind
%suse Rattle.sp_grammar.specs.declared.actions.Action.{Action}
use Rattle.sp_grammar.specs.declared.actions.Action.TheVariants as build
use Rattle.sp_grammar.specs.Terminals.{terminal_number}
use Rattle.sp_grammar.specs.Actions.{action_number, all_actions}
use Rattle.sp_grammar.specs.Written.{Part, part_number, all_parts}
use Rattle.sp_grammar.specs.Own.{own, alternatives}

-- the terminals by their numbers, and any where there is none
by_number : List Terminal
by_number = %s

terminal_there : (t : Terminal) → get_or by_number (terminal_number t) %s ≡ t
unfolding by_number
%s
pub terminals_apart : (a b : Terminal) → terminal_number a ≡ terminal_number b → a ≡ b
terminals_apart a b e = sym (terminal_there a) ∙ ap (λ n. get_or by_number n %s) e ∙ terminal_there b

action_there : (m : Action) → get_or all_actions (action_number m) %s ≡ m
%s
pub actions_apart : (a b : Action) → action_number a ≡ action_number b → a ≡ b
actions_apart a b e = sym (action_there a) ∙ ap (λ n. get_or all_actions n %s) e ∙ action_there b

part_there : (p : Part) → get_or all_parts (part_number p) Part.%s ≡ p
%s
pub parts_apart : (a b : Part) → part_number a ≡ part_number b → a ≡ b
parts_apart a b e = sym (part_there a) ∙ ap (λ n. get_or all_parts n Part.%s) e ∙ part_there b

pub own_alternatives : (p : Part) → productions_of own (part_number p) ≡ alternatives p
unfolding own
%s"""


def number_proofs(g, _):
    """That no two of them have one number, and that the grammar has the alternatives of each part at its number."""
    kinds = {number: terminal_in_contracts(token) for number, token in terminals(g)}
    actions = [action_in_contracts(action) for action in g.actions]
    return NUMBERS % (
        WORD_IMPORTS,
        OPERATOR_IMPORTS,
        antt_list(kinds.get(number, kinds[0]) for number in range(SECOND)),
        kinds[0],
        "".join(f"terminal_there {name} = refl\n" for name in kinds.values()),
        kinds[0],
        actions[0],
        "".join(f"action_there {name} = refl\n" for name in actions),
        actions[0],
        g.parts[0],
        "".join(f"part_there Part.{part} = refl\n" for part in g.parts),
        g.parts[0],
        "".join(f"own_alternatives Part.{part} = refl\n" for part in g.parts),
    )


FILES = {
    "src/tables.rt": tables,
    "src/terminals.rt": terminal_enum,
    "src/actions.rt": action_enum,
    "specs/Sets.antt": sets,
    "specs/Terminals.antt": terminal_numbers,
    "specs/TerminalKinds.antt": terminal_kinds,
    "specs/Actions.antt": action_numbers,
    "specs/Written.antt": parts,
    "proofs/Numbers.antt": number_proofs,
}


def main():
    if len(sys.argv) != 2:
        raise SystemExit(__doc__)
    grammar = Grammar(Path(__file__).with_name("grammar.txt"))
    facts = Facts(grammar)
    for name, text_of in FILES.items():
        file = Path(sys.argv[1], name)
        file.parent.mkdir(parents=True, exist_ok=True)
        file.write_text(text_of(grammar, facts), encoding="utf-8")


main()
