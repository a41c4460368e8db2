"""docs/ways over the sources of three small crates: which functions it finds, and where it says that the way turns
back."""

import sys
from typing import Dict, List, Set

import built
from case import Case

sys.path[:0] = [str(built.TOP / "docs" / "calls")]

from graph import Facts, Graph, Run
from items import Items

SOURCES = {
    "low": """
pub trait Sink {
    ghost told: { Self → List ℕ };

    /// Takes a word.
    fn put(&mut self, word: Word)
        ensures { self.new ≡ "{" };

    fn end(&self) {
        closed();
    }
}

pub enum Word {
    Ask(u32),
    Rest { name: Text },
}

pub struct Text {
    pub bytes: Vec<u8>,
}

impl Text {
    pub fn len(&self) -> usize {
        self.bytes.len()
    }
}

/// Hands a word on.
pub fn hand<S: Sink>(sink: &mut S, word: Word) -> Result<usize, Fault>
    // For every word:
    ensures { IsTrue result }
    requires given { (word : Word) → "}" }
{
    let count = match word {
        Word::Ask(number) if number > 1 => asked(number)?,
        Word::Ask(_) => 0,
        Word::Rest { name } => name.len(),
    };
    sink.put(word);
    Ok(count)
}

fn asked(number: u32) -> Result<usize, Fault> {
    let Some(room) = room_for(number) else {
        return refused(number);
    };
    Ok(room).map_err(|_| shown(number))
}

fn room_for(number: u32) -> Option<usize> {
    (0..number).map(|it| twice(it)).max()
}

fn twice(number: u32) -> usize {
    number as usize * 2
}

fn refused(number: u32) -> Result<usize, Fault> {
    Err(shown(number))
}

fn shown(number: u32) -> Fault {
    Fault { number }
}

fn closed() {
    twice(1);
}
""",
    "high": """
use low::{Sink, Word, hand};

pub struct Socket {
    words: Vec<Word>,
}

pub struct Scripted {
    words: Vec<Word>,
}

impl Socket {
    fn new() -> Socket {
        Socket { words: Vec::new() }
    }
}

impl Sink for Socket {
    fn put(&mut self, word: Word) {
        self.words.push(word);
        noted(self.words.len());
    }
}

impl Sink for Scripted {
    fn put(&mut self, word: Word) {
        scripted(word);
    }
}

fn noted(count: usize) {}

fn scripted(word: Word) {
    hand(word);
}

pub fn main() {
    let mut socket = Socket::new();
    serve(&mut socket);
    let word = Word::Ask(2);
}

pub fn serve<S: Sink>(sink: &mut S) {
    hand(sink, Word::Ask(3));
    sink.end();
}
""",
}
# From `serve` on: an arm whose variant nothing makes, faults, and a type that `main` does not make are no part of it.
WAY = ["serve", "hand", "Sink::end", "asked", "Socket::put", "closed", "noted", "room_for", "twice"]
BELOW: Dict[str, Set[str]] = {"low": set(), "high": {"low"}}
OK: Facts = {"Result": frozenset(["Ok"])}


class Ways(Case):
    def items(self) -> Items:
        for crate, text in SOURCES.items():
            source = self.room / "crates" / crate / "src"
            source.mkdir(parents=True)
            (source / "lib.rt").write_text(text, encoding="utf-8")
        return Items(self.room, BELOW)

    def test_way(self) -> None:
        items = self.items()
        graph = Graph(items)
        main, serve = (items.named[name][0] for name in ("main", "serve"))
        server = Run(graph, [(main, ())], {})
        self.same("what the server makes", ("high::Socket", "") in server.made, True)
        called = [it for it in server.instances if it[0] is serve]
        run = Run(graph, called, OK, {kind for kind, _ in server.made})
        self.same("the way", sorted(it.shown for it in run.functions), sorted(WAY))
        back = [(it.caller.shown, it.callee.shown) for it in run.edges if it.callee.crate not in down(it.caller.crate)]
        self.same("where it turns back", back, [("hand", "Socket::put")])

    def test_variants_of_the_state(self) -> None:
        """An arm counts if its variant was made before."""
        items = self.items()
        run = Run(Graph(items), [(items.named["hand"][0], ())], OK, set(), {("low::Word", "Rest")})
        self.same("the way", sorted(it.shown for it in run.functions), ["Text::len", "hand"])


def down(crate: str) -> List[str]:
    return [crate, *BELOW[crate]]
